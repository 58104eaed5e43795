//! A moment tells something where it is due, and nothing before that.

#[path = "../examples/random.rs"]
#[allow(dead_code)]
mod random;

use fulltimehen::{Core, Event, Plan, RunningCore};
use random::{Draw, fitting, head};

/// How far ahead a moment lies that is behind all that may wait.
const FAR: u64 = 10_000_000;

/// What a moment told, in lines of actions.
fn told_at(core: &mut RunningCore, ms: u64) -> usize {
    core.step(&Event::Moment { ms }).expect("it fits").actions().count()
}

/// How many moments were given before which none was due, and how many that were.
#[derive(Default)]
struct Given {
    calm: usize,
    due: usize,
}

/// A moment right before the one that is due, which tells nothing, and now and then that one, which tells something or
/// ends the run; or one far ahead, where none is due. It answers the last moment.
fn try_moments(core: &mut RunningCore, moment: u64, reaches: bool, given: &mut Given) -> u64 {
    let due = core.next_due();
    assert!(due.is_none_or(|due| moment <= due), "{due:?} is before {moment}");
    let before = due.map_or(moment + FAR, |due| due.saturating_sub(1).max(moment));
    // A parent that waits no time is due at the last moment itself.
    if due != Some(before) {
        let told = told_at(core, before);
        assert_eq!(told, 0, "{before}, {due:?}: {}", core.last_told().expect("memory").record());
        assert_eq!(core.next_due(), due, "a moment that tells nothing changes nothing");
        given.calm += 1;
    }
    match due {
        Some(due) if reaches => {
            let told = told_at(core, due);
            assert!(told > 0 || core.end().is_some(), "nothing at {due}");
            given.due += 1;
            due
        }
        _ => before,
    }
}

/// The steps of a random plan, with moments before and at those that are due.
fn moments(seed: u64, given: &mut Given) {
    let mut draw = Draw::of(seed);
    let (head, [upgrade, daemon, test], services) = head(&mut draw);
    let plan = Plan::from_script(&head).upgrade(upgrade).daemon(daemon).test(test);
    let Ok(core) = Core::new(&plan) else {
        return;
    };
    let mut core = core.begin().expect("memory");
    let (mut next, mut moment) = (3, 0);
    for step in 0..100 {
        if core.end().is_some() {
            break;
        }
        moment = try_moments(&mut core, moment, step % 3 == 0, given);
        if core.end().is_some() {
            break;
        }
        let Some(event) = fitting(&mut draw, &mut core, services, next, moment) else {
            break;
        };
        core.step(&event).expect("it fits");
        if let Event::Moment { ms } = event {
            moment = ms;
        }
        next += 2;
    }
}

#[test]
fn a_moment_tells_something_where_it_is_due() {
    let mut given = Given::default();
    (0..4000).for_each(|seed| moments(seed, &mut given));
    assert!(given.calm > 10_000 && given.due > 1_000, "{} and {}", given.calm, given.due);
}
