//! Charts whose transitions all have composite sources: what they have, and which transitions are active
//! when a basic state lacks exits.

use reference::forms::request::Request;
use reference::generate::completion::{
    basic_states, completion_requests, configurations, few_completion_requests, fewer_marks,
    with_marks,
};
use reference::generate::special_completion::{
    broadcast_list, broadcast_step, completion_charts, deep, plain_step, wide, EVERY_EXIT, LEVELS,
};
use reference::model::chart::{Chart, Kind, Transition};
use reference::model::chart_machine::{self, ChartConfiguration};
use reference::model::check::check;
use reference::model::flatten::network_of;
use reference::model::label::Signal;
use reference::model::limits::{EXITS, STATES, TRANSITIONS};
use reference::model::moves::{allowed, Member};
use reference::model::refusal::Refusal;
use reference::runs::steps::number;

/// How many transitions satisfy a condition.
fn count(chart: &Chart, condition: impl Fn(&Transition) -> bool) -> usize {
    chart.transitions.iter().filter(|transition| condition(transition)).count()
}

/// The numbers of the active transitions.
fn active(chart: &Chart, configuration: &ChartConfiguration) -> Vec<usize> {
    let is_active = |&number: &usize| chart_machine::is_active(chart, configuration, number);
    (0..chart.transitions.len()).filter(is_active).collect()
}

/// How many states lie above a state.
fn depth(chart: &Chart, state: usize) -> usize {
    std::iter::successors(chart.parent(state), |&above| chart.parent(above)).count()
}

/// The list of a step.
fn list_of(request: &Request) -> &[u16] {
    match request {
        Request::ChartStep(_, _, list) => list,
        _ => panic!("not a step"),
    }
}

#[test]
fn every_transition_has_a_composite_source_and_is_active_at_the_start() {
    for (name, chart) in completion_charts() {
        assert_eq!(check(&chart.write()).as_ref(), Ok(&chart), "{name}");
        assert_eq!((chart.states.len(), chart.transitions.len()), (STATES, TRANSITIONS), "{name}");
        let composite = |transition: &Transition| chart.states[transition.source].is_composite();
        assert_eq!(count(&chart, composite), TRANSITIONS, "{name}");
        assert_eq!(count(&chart, |transition| transition.label.signal == Signal::Send(0)), 1);
        assert_eq!(count(&chart, |transition| transition.label.signal == Signal::None), 7);
        for exit in 0..EXITS {
            let receives = |transition: &Transition| {
                transition.label.signal == Signal::Receive(0) && transition.exit == Some(exit)
            };
            assert_eq!(count(&chart, receives), 7, "{name}, exit {exit}");
        }
        let start = chart_machine::start(&chart);
        assert!(active(&chart, &start).into_iter().eq(0..TRANSITIONS), "{name}");
        assert!(network_of(&chart).is_ok(), "{name}");
    }
}

#[test]
fn the_deep_chart_is_deep() {
    let chart = deep();
    let sequential = chart.states.iter().filter(|state| state.kind == Kind::Sequential);
    assert_eq!(sequential.count(), 16);
    let active = chart_machine::start(&chart).active;
    let basic = basic_states(&chart);
    assert_eq!(basic.iter().filter(|&&state| active[state]).count(), 12);
    assert_eq!(basic.iter().filter(|&&state| !active[state]).count(), 2);
    // Above a basic state in the last level are all levels, their region and the root.
    let lowest = basic.iter().filter(|&&state| depth(&chart, state) == LEVELS + 2);
    assert_eq!(lowest.count(), 9);
}

#[test]
fn the_wide_chart_is_wide() {
    let chart = wide();
    let active = chart_machine::start(&chart).active;
    assert!(active.iter().all(|&active| active));
    assert_eq!(basic_states(&chart).len(), 31);
    assert!(basic_states(&chart).iter().all(|&state| depth(&chart, state) == 3));
}

#[test]
fn both_steps_are_accepted() {
    for (name, chart) in completion_charts() {
        let [plain, broadcast] = [plain_step(&chart), broadcast_step(&chart)];
        assert!(plain.answer().is_ok() && broadcast.answer().is_ok(), "{name}");
        let regions = chart.children[0].len();
        assert_eq!((list_of(&plain).len(), list_of(&broadcast).len()), (1, regions), "{name}");
        for exit in 0..EXITS {
            assert_eq!(broadcast_list(&chart, exit).len(), regions, "{name}, exit {exit}");
        }
    }
}

/// What the start configuration makes active once one basic state has fewer marks: a transition is not
/// active just if that state is, lies below its source and lacks its exit.
#[test]
fn a_missing_mark_shuts_its_exit_alone() {
    for (name, chart) in completion_charts() {
        let start = chart_machine::start(&chart);
        for state in basic_states(&chart) {
            for marks in fewer_marks() {
                let changed = with_marks(&chart, state, marks);
                let shut = |&number: &usize| {
                    let transition = &chart.transitions[number];
                    let lacks = transition.exit.is_some_and(|exit| marks & (1 << exit) == 0);
                    start.active[state] && chart.is_below(state, transition.source) && lacks
                };
                let open = (0..TRANSITIONS).filter(|number| !shut(number));
                assert!(open.eq(active(&changed, &start)), "{name}, {state}, {marks}");
            }
        }
    }
}

/// A basic state in the last level of the deep chart lacks exit 3: those that have it are refused with 19.
#[test]
fn transitions_with_a_shut_exit_are_refused() {
    let chart = deep();
    let start = chart_machine::start(&chart);
    let changed = with_marks(&chart, STATES - 1, EVERY_EXIT & !(1 << 3));
    for (number, transition) in chart.transitions.iter().enumerate() {
        let answer = chart_machine::step(&changed, &start, &[number as u16]);
        let expected = match transition.label.signal {
            _ if transition.exit == Some(3) => Some(Refusal::Inactive),
            Signal::None => None,
            // A receiver without sender, or a sender without receiver though there are active ones.
            _ => Some(Refusal::NotAllowed),
        };
        assert_eq!(answer.err(), expected, "{number}");
    }
    // All receivers with another exit may take part, and none with this one.
    for exit in 0..EXITS {
        let answer = chart_machine::step(&changed, &start, &broadcast_list(&chart, exit));
        assert_eq!(answer.err(), (exit == 3).then_some(Refusal::Inactive), "{exit}");
    }
}

/// A basic state that is not active in the start configuration counts once it is.
#[test]
fn a_state_counts_while_it_is_active() {
    let chart = deep();
    let start = chart_machine::start(&chart);
    for transition in chart.transitions.iter().filter(|one| one.source != one.destination) {
        let state = transition.destination;
        assert!(!start.active[state]);
        let unmarked = with_marks(&chart, state, 0);
        assert_eq!(active(&unmarked, &start).len(), TRANSITIONS);
        let others = configurations(&chart).into_iter().filter(|one| one.active[state]);
        for given in others {
            let is_open = |number: &usize| {
                let source = chart.transitions[*number].source;
                given.active[source] && !chart.is_below(state, source)
            };
            let open: Vec<usize> = (0..TRANSITIONS).filter(is_open).collect();
            assert_eq!(active(&unmarked, &given), open);
            assert!(open.len() < active(&chart, &given).len());
        }
    }
    assert_eq!(configurations(&chart).len(), 3);
}

/// Whether a state is completed by an exit in a configuration.
type Completion = fn(&Chart, &ChartConfiguration, usize, usize) -> bool;

/// The active basic states below a state.
fn counting(chart: &Chart, given: &ChartConfiguration, state: usize) -> Vec<usize> {
    let below = chart.at_or_below(state).into_iter();
    below.filter(|&one| given.active[one] && !chart.states[one].is_composite()).collect()
}

const RIGHT: Completion = |chart, given, state, exit| {
    counting(chart, given, state).iter().all(|&one| chart.states[one].has_exit(exit))
};

/// Completions with one fault each.
const WRONG: [(&str, Completion); 7] = [
    ("none is asked", |_, _, _, _| true),
    ("some state marked", |chart, given, state, exit| {
        counting(chart, given, state).iter().any(|&one| chart.states[one].has_exit(exit))
    }),
    ("children alone", |chart, given, state, exit| {
        let mut below = counting(chart, given, state).into_iter();
        below.all(|one| chart.parent(one) != Some(state) || chart.states[one].has_exit(exit))
    }),
    ("inactive ones too", |chart, _, state, exit| {
        let mut below = chart.at_or_below(state).into_iter();
        below.all(|one| chart.states[one].is_composite() || chart.states[one].has_exit(exit))
    }),
    ("all active states of the chart", |chart, given, _, exit| RIGHT(chart, given, 0, exit)),
    ("the first exit", |chart, given, state, _| RIGHT(chart, given, state, 0)),
    ("all but the last state", |chart, given, state, exit| {
        let mut below = counting(chart, given, state).into_iter();
        below.all(|one| one == chart.states.len() - 1 || chart.states[one].has_exit(exit))
    }),
];

/// The number of a step's answer, 0 if it is accepted, by this completion. The charts have no guards and no
/// bounds.
fn answer_by(completion: Completion, request: &Request) -> u8 {
    let Request::ChartStep(file, given, list) = request else {
        panic!("not a step");
    };
    let chart = check(file).expect("it passes");
    let is_active = |number: usize| {
        let Transition { source, exit, .. } = chart.transitions[number];
        given.active[source] && exit.is_none_or(|exit| completion(&chart, given, source, exit))
    };
    let numbers: Vec<usize> = list.iter().map(|&number| usize::from(number)).collect();
    if !numbers.iter().all(|&number| is_active(number)) {
        return Refusal::Inactive.number();
    }
    let member = |number: usize| chart_machine::member(&chart, number);
    let set: Vec<Member> = numbers.into_iter().map(member).collect();
    let active_receivers = |channel: usize| {
        let receivers = (0..chart.transitions.len())
            .filter(|&number| member(number).signal == Signal::Receive(channel));
        receivers.filter(|&number| is_active(number)).map(|number| member(number).group).collect()
    };
    let is_allowed = allowed(&set, chart.declared.rendezvous, active_receivers);
    if is_allowed {
        0
    } else {
        Refusal::NotAllowed.number()
    }
}

/// The requests that are committed have an answer that each of the wrong completions gets wrong.
#[test]
fn wrong_completions_are_noticed() {
    let requests = few_completion_requests();
    let right = |request: &Request| number(&request.answer());
    assert!(requests.iter().all(|request| answer_by(RIGHT, request) == right(request)));
    for (name, wrong) in WRONG {
        let noticed = requests.iter().any(|request| answer_by(wrong, request) != right(request));
        assert!(noticed, "{name}");
    }
}

/// The requests of the comparison have every answer often.
#[test]
fn the_compared_requests_are_accepted_and_refused() {
    for (name, chart) in completion_charts() {
        let mut answers = [0; 3];
        for request in completion_requests(&chart) {
            let place = match request.answer() {
                Ok(_) => 0,
                Err(Refusal::Inactive) => 1,
                Err(Refusal::NotAllowed) => 2,
                Err(other) => panic!("{name}: {}", other.number()),
            };
            answers[place] += 1;
        }
        println!("{name}: {answers:?}");
        assert!(answers.iter().all(|&count| count > 1_000), "{name}: {answers:?}");
    }
}
