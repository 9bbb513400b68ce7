//! The rules that both machines share: lists of numbers and the three cases of an allowed set.

use crate::model::label::Signal;
use crate::model::limits::LIST;
use crate::model::refusal::Refusal;

/// What the three cases look at in one transition or edge.
#[derive(Clone, Copy, PartialEq, Eq, Debug)]
pub struct Member {
    /// The parent of a transition's source, or the automaton of an edge.
    /// A set is independent when these differ.
    pub group: usize,
    pub signal: Signal,
}

/// Refusal 18: a list holds 1 to 16 known numbers, strictly ascending.
pub fn known_and_ascending(list: &[u16], known: usize) -> Result<(), Refusal> {
    let right_length = (1..=LIST).contains(&list.len());
    let all_known = list.iter().all(|&number| usize::from(number) < known);
    let ascending = list.windows(2).all(|pair| pair[0] < pair[1]);
    if right_length && all_known && ascending {
        Ok(())
    } else {
        Err(Refusal::List)
    }
}

/// Whether a set, all of it active, is allowed: one member without signal; or a sender and a
/// receiver on one rendezvous channel; or a sender on a broadcast channel with receivers of it,
/// no further active receiver fitting independently.
/// `active_receivers` gives the groups of all active receivers on a channel.
pub fn allowed(
    set: &[Member],
    rendezvous: usize,
    active_receivers: impl Fn(usize) -> Vec<usize>,
) -> bool {
    if !independent(set) {
        return false;
    }
    if let [Member { signal: Signal::None, .. }] = set {
        return true;
    }
    let sender = set.iter().find_map(|member| match member.signal {
        Signal::Send(channel) => Some((member.group, channel)),
        _ => None,
    });
    let Some((sender_group, channel)) = sender else {
        return false;
    };
    let others_receive = set
        .iter()
        .filter(|member| member.group != sender_group)
        .all(|member| member.signal == Signal::Receive(channel));
    if !others_receive {
        return false;
    }
    if channel < rendezvous {
        return set.len() == 2;
    }
    let one_more_fits = active_receivers(channel)
        .into_iter()
        .any(|group| set.iter().all(|member| member.group != group));
    !one_more_fits
}

fn independent(set: &[Member]) -> bool {
    set.iter()
        .enumerate()
        .all(|(index, member)| set[..index].iter().all(|earlier| earlier.group != member.group))
}
