//! Finding the sets of transitions or edges that a machine may allow.

use crate::generate::random::Random;
use crate::model::label::Signal;
use crate::model::moves::Member;

/// The sets that fit one of the three cases of an allowed set, made from the active transitions or
/// edges given with their numbers. Bounds and urgency are not looked at. For one broadcast sender
/// at most `most` sets are given: all of them, or if there are more, random ones.
pub fn candidates(
    active: &[(u16, Member)],
    rendezvous: usize,
    most: usize,
    random: &mut Random,
) -> Vec<Vec<u16>> {
    let mut sets = Vec::new();
    for &(number, member) in active {
        match member.signal {
            Signal::None => sets.push(vec![number]),
            Signal::Receive(_) => {}
            Signal::Send(channel) => {
                let choices = receivers_by_group(active, channel, member.group);
                if channel < rendezvous {
                    sets.extend(choices.concat().into_iter().map(|other| vec![number, other]));
                } else {
                    sets.extend(one_of_each(number, &choices, most, random));
                }
            }
        }
    }
    for set in &mut sets {
        set.sort_unstable();
    }
    sets
}

/// The active receivers on a channel outside the sender's group, a list for each group.
fn receivers_by_group(
    active: &[(u16, Member)],
    channel: usize,
    sender_group: usize,
) -> Vec<Vec<u16>> {
    let mut groups: Vec<(usize, Vec<u16>)> = Vec::new();
    for &(number, member) in active {
        if member.signal != Signal::Receive(channel) || member.group == sender_group {
            continue;
        }
        match groups.iter_mut().find(|(group, _)| *group == member.group) {
            Some((_, list)) => list.push(number),
            None => groups.push((member.group, vec![number])),
        }
    }
    groups.into_iter().map(|(_, list)| list).collect()
}

/// Sets of the sender and one receiver from each list.
fn one_of_each(
    sender: u16,
    choices: &[Vec<u16>],
    most: usize,
    random: &mut Random,
) -> Vec<Vec<u16>> {
    let total = choices.iter().map(Vec::len).fold(1, usize::saturating_mul);
    if total > most {
        return (0..most)
            .map(|_| {
                let receivers = choices.iter().map(|list| random.pick(list));
                std::iter::once(sender).chain(receivers).collect()
            })
            .collect();
    }
    let mut sets = vec![vec![sender]];
    for list in choices {
        let longer = |set: Vec<u16>| {
            list.iter()
                .map(move |&number| set.iter().copied().chain([number]).collect::<Vec<u16>>())
        };
        sets = sets.into_iter().flat_map(longer).collect();
    }
    sets
}
