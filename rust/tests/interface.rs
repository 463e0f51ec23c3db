//! The calls of the interface for other languages on the plain implementation:
//! their refusals in order, what they write, and what they have to do with
//! each other.

use folvkin_compare::cases::{Case, Kept, Kind, answer_to, plain};
use folvkin_compare::generate::{self, Search};
use folvkin_compare::interface::{EVENT_ROOM, Interface, Plain};
use folvkin_compare::plain::key::{SLOT, START};
use folvkin_compare::plain::{Edition, Line, Plan, Situation};
use folvkin_compare::random::Random;
use folvkin_compare::{told, with_the_calls};

/// "Order: 20, 1, 2, 3, 4, 21, 22, 24, then the event's own."
const ORDER: [u8; 9] = [20, 1, 2, 3, 4, 21, 22, 24, 5];

/// An input and the refusal that it is due alone, 0 for none.
type Due<'a> = (&'a [u8], u8);

/// The first in order of the refusals that are due.
fn first_due(due: &[u8]) -> u8 {
    ORDER.into_iter().find(|refusal| due.contains(refusal)).unwrap_or(0)
}

const PLANS: [Due; 20] = [
    (b"LB\x04\x02", 0),
    (b"LB\x01\x01", 1),
    (b"LB\x04\x04", 1),
    (b"", 20),
    (b"LB\x04", 20),
    (b"LB\x04\x02\0", 20),
    (b"LB\x04\x02\x01", 20),
    (b"LB\x01\x01\x01", 20),
    (b"LC\x04\x02\x01", 0),
    (b"LC\x01\x01\x01", 1),
    (b"LC\x04\x04\x01", 1),
    (b"LC\x04\x02\0", 20),
    (b"LC\x04\x02\x02", 20),
    (b"LC\x04\x02\xff", 20),
    (b"LC\x01\x01\x02", 20),
    (b"LC\x04\x02", 20),
    (b"LC\x04\x02\x01\x01", 20),
    (b"LD\x04\x02\x01", 20),
    (b"LA\x04\x02", 20),
    (b"CL\x04\x02\x01", 20),
];

/// By either edition. On those that are sound nothing is pending and no signal
/// is clear; the line is free in the first.
const SITUATIONS: [Due; 19] = [
    (b"SI\x01\0\0\0\0\0\0\0\0\0\0\0\0\0\0\0\0\0\0", 0),
    (b"SJ\x01\0\0\0\0\0\0\0\0\0\0\0\0\0\0\0\0\0\0\x01\x0a", 0),
    (b"SJ\x01\0\0\0\0\0\0\0\0\0\0\0\0\x08\0\0\0\0\0\x01\0", 0),
    (b"SJ\x01\0\0\0\0\0\0\0\0\0\0\0\0\0\0\0\0\0\0\x01\0", 2),
    (b"SJ\x01\0\0\0\0\0\0\0\0\0\0\0\0\0\0\0\0\0\0\0\x01", 2),
    (b"SJ\x01\0\0\0\0\0\0\0\0\0\0\0\0\0\0\0\0\0\0\x01\x0b", 2),
    (b"SJ\x01\0\0\0\0\0\0\0\0\0\0\0\0\0\0\0\0\0\0\x02\x01", 2),
    (b"SJ\x01\0\0\0\0\0\0\0\0\0\0\0\0\x08\0\0\0\0\0\x01\x01", 2),
    (b"SJ\x01\0\0\0\0\0\0\0\0\0\0\0\0\0\0\0\0\0\0\0\0", 20),
    (b"SJ\x01\x01\x01\0\0\0\0\0\0\0\0\0\0\0\0\0\0\0\0\0\0", 20),
    (b"SJ\x01\0\0\0\0\0\0\0\0\0\0\0\0\0\0\0\0\0\0\x01", 20),
    (b"SJ\x01\0\0\0\0\0\0\0\0\0\0\0\0\0\0\0\0\0\0\x01\x0a\0", 20),
    (b"SI\x01\0\0\0\0\0\0\0\0\0\0\0\0\0\0\0\0\0\0\x01\x0a", 20),
    (b"SI\x01\x01\x01\0\0\0\0\0\0\0\0\0\0\0\0\0\0\0\0", 2),
    (b"", 20),
    (b"SJ\x01\0\0\0\0\0\0\0\0\0\0\0\0\0\0\0\0\0\0", 20),
    (b"SI\x01\0\0\0\0\0\0\0\0\0\0\0\0\0\0\0\0\0", 20),
    (b"SI\x01\0\0\0\0\0\0\0\0\0\0\0\0\0\0\0\0\0\0\0", 20),
    (b"\x01\0\0\0\0\0\0\0\0\0\0\0\0\0\0\0\0\0\0", 20),
];

/// On the fresh situation.
const EVENTS: [Due; 9] = [
    (&[1, 0], 0),
    (&[5, 0], 5),
    (&[1, 2], 4),
    (&[23, 1], 4),
    (&[0, 0], 3),
    (&[24, 9], 3),
    (&[], 20),
    (&[1], 20),
    (&[1, 0, 0], 20),
];

const READINGS: [Due; 6] =
    [(&[5, 0], 0), (&[5, 1], 21), (&[6, 0], 21), (&[], 20), (&[5], 20), (&[5, 0, 0], 20)];

const SLOTS: [Due; 5] = [
    (&[0, 0, 0, 0, 0, 0], 0),
    (&[2, 1, 2, 0, 0, 0], 0),
    (&[1, 0, 0, 0, 0, 0], 22),
    (&[0, 0, 0, 0, 0], 22),
    (&[0, 0, 0, 0, 0, 0, 0], 22),
];

/// What stands after plan and situation in a question, and after which a bad
/// plan or situation still comes first.
const LISTS: [Due; 7] = [
    (b"EV\x02\x01\0\x02\x01RD\0LN\x02", 0),
    (b"EV\x02\0\0\x02\x01RD\0LN\x02", 3),
    (b"EV\x02\x01\x02\x02\x01RD\0LN\x02", 4),
    (b"EV\x02\x01\0\x01\0RD\0LN\x02", 21),
    (b"EV\x02\x01\0\x02\x01RD\x01\x05\0\x02LN\x02", 21),
    (b"EV\x02\x01\0\x02\x01RD\0LN\x06", 21),
    (b"EV\0RD\0LN\x02", 20),
];

fn plans_and_situations() -> impl Iterator<Item = (Due<'static>, Due<'static>)> {
    PLANS.into_iter().flat_map(|plan| SITUATIONS.map(|situation| (plan, situation)))
}

#[test]
fn plans_and_situations_are_refused_in_order() {
    for (plan, due) in PLANS {
        assert_eq!(Plain::plan(plan), due);
    }
    for ((plan, due_plan), (situation, due_situation)) in plans_and_situations() {
        assert_eq!(Plain::situation(plan, situation), first_due(&[due_plan, due_situation]));
    }
}

#[test]
fn events_are_refused_in_order() {
    for ((plan, due_plan), (situation, due_situation)) in plans_and_situations() {
        for (event, due_event) in EVENTS {
            for length in [0, 21, 22, 23, EVENT_ROOM - 1, EVENT_ROOM, 2 * EVENT_ROOM] {
                let due_room = if length < EVENT_ROOM { 24 } else { 0 };
                let due = first_due(&[due_plan, due_situation, due_event, due_room]);
                let mut room = vec![7; length];
                let returned = Plain::event(plan, situation, event, &mut room);
                if due == 0 {
                    let mut after = situation.to_vec();
                    after[11] = 1;
                    assert_eq!(returned, (after.len() as u64) << 16);
                    assert!(room.starts_with(&after));
                    assert!(room[after.len()..].iter().all(|&byte| byte == 7));
                } else {
                    assert_eq!(returned, due.into());
                    assert!(room.iter().all(|&byte| byte == 7));
                }
            }
        }
    }
}

#[test]
fn aspects_are_refused_in_order() {
    for ((plan, due_plan), (situation, due_situation)) in plans_and_situations() {
        for length in [0, 7, 8, 9] {
            let due_room = if length < 8 { 24 } else { 0 };
            let due = first_due(&[due_plan, due_situation, due_room]);
            let mut room = vec![7; length];
            assert_eq!(Plain::aspects(plan, situation, &mut room), due);
            let written = if due == 0 { 8 } else { 0 };
            assert!(room[..written].iter().all(|&byte| byte == 0));
            assert!(room[written..].iter().all(|&byte| byte == 7));
        }
    }
}

#[test]
fn readings_are_refused_in_order() {
    for ((plan, due_plan), (situation, due_situation)) in plans_and_situations() {
        for (reading, due_reading) in READINGS {
            let due = first_due(&[due_plan, due_situation, due_reading]);
            let value = u32::from(due == 0 && situation != SITUATIONS[0].0);
            assert_eq!(Plain::reading(plan, situation, reading), u32::from(due) + (value << 8));
        }
    }
}

/// Plan, situation and lists laid end to end are a question. (Records with
/// bytes missing or left over are left out: what follows could fill them.)
#[test]
fn questions_are_refused_in_order() {
    for ((plan, due_plan), (situation, due_situation)) in plans_and_situations() {
        let plan_length = if plan.starts_with(b"LC") { 5 } else { 4 };
        if plan.len() != plan_length || !matches!(situation.len(), 21 | 23) {
            continue;
        }
        for (lists, due_lists) in LISTS {
            let question = [plan, situation, lists].concat();
            let due_question = first_due(&[due_plan, due_situation, due_lists]);
            assert_eq!(Plain::question(&question), due_question);
            for (slot, due_slot) in SLOTS {
                let due = first_due(&[due_question, due_slot]);
                assert_eq!(told::Run::from(Plain::run(&question, slot)).refusal, due);
                for length in [0, 5, 6, 13] {
                    let due_room = if length < SLOT { 24 } else { 0 };
                    let mut room = vec![7; length];
                    let told = told::Key::from(Plain::key(&question, slot, &mut room));
                    assert_eq!(told.refusal, first_due(&[due, due_room]));
                    assert!(room[told.count * SLOT..].iter().all(|&byte| byte == 7));
                }
            }
        }
    }
}

#[test]
fn marks_are_refused_in_order() {
    for (kind, due) in [(1, 0), (3, 23)] {
        for length in [12, 13, 14] {
            let mut room = vec![7; length];
            let due = if due == 0 && length < 13 { 24 } else { due };
            assert_eq!(Plain::mark(kind, 1500, 100, 50, 0, 0, &mut room), due);
            let is_written = room.iter().take(13).any(|&byte| byte != 7);
            assert_eq!(is_written, due == 0);
            assert!(room.iter().skip(13).all(|&byte| byte == 7));
        }
    }
}

/// The second marked example, by calls alone.
#[test]
fn what_an_event_wrote_is_lent_to_the_next() {
    let plan = Line::new(Plan::new(Edition::Of2024, 4, 2)).unwrap().to_record();
    let mut situation = Situation::FRESH.to_record().to_vec();
    let mut happen = |event: [u8; 2]| {
        let mut room = [0; EVENT_ROOM];
        let told = told::Event::from(Plain::event(&plan, &situation, &event, &mut room));
        if told.refusal == 0 {
            situation = room[..told.length].to_vec();
        }
        let mut aspects = [9; 8];
        assert_eq!(Plain::aspects(&plan, &situation, &mut aspects), 0);
        (told.refusal, aspects)
    };
    assert_eq!(happen([1, 0]), (0, [0; 8]));
    assert_eq!(happen([2, 1]), (0, [0, 2, 2, 1, 0, 0, 0, 0]));
    assert_eq!(happen([14, 0]), (0, [2, 2, 2, 1, 0, 0, 0, 0]));
    assert_eq!(happen([14, 1]), (15, [2, 2, 2, 1, 0, 0, 0, 0]));
}

/// A stray occupation, by calls alone: SJ while the mark or the count is there,
/// SI before and after.
#[test]
fn records_grow_and_shrink() {
    let plan = b"LB\x04\x02";
    let mut situation = b"SI\x01\x01\x02\0\0\0\0\0\0\0\0\0\0\0\0\0\0\0\0".to_vec();
    let mut happen = |event: [u8; 2], right: &[u8]| {
        let mut room = [7; EVENT_ROOM];
        let returned = Plain::event(plan, &situation, &event, &mut room);
        assert_eq!(returned, (right.len() as u64) << 16);
        assert!(room.starts_with(right));
        assert!(room[right.len()..].iter().all(|&byte| byte == 7));
        situation = right.to_vec();
        (Plain::reading(plan, right, &[5, 0]) >> 8, Plain::event(plan, right, &[14, 1], &mut room) as u16)
    };
    let free = (0, 0);
    // What 13 names stands above it.
    let not_free = |name: u16| (1, 13 + (name << 8));
    assert_eq!(happen([23, 0], b"SI\x01\x01\x02\0\0\0\0\0\0\0\0\0\0\0\0\0\0\0\0"), free);
    assert_eq!(happen([19, 3], b"SJ\x01\x01\x02\0\0\0\0\0\0\0\0\0\0\x04\0\0\0\0\0\x01\0"), not_free(3));
    assert_eq!(happen([23, 0], b"SJ\x01\x01\x02\0\0\0\0\0\0\0\0\0\0\x04\0\0\0\0\0\x01\0"), not_free(3));
    for count in (1..=10).rev() {
        let event = if count == 10 { [20, 3] } else { [23, 0] };
        let mut right = *b"SJ\x01\x01\x02\0\0\0\0\0\0\0\0\0\0\0\0\0\0\0\0\x01\0";
        right[22] = count;
        assert_eq!(happen(event, &right), not_free(0));
    }
    assert_eq!(happen([23, 0], b"SI\x01\x01\x02\0\0\0\0\0\0\0\0\0\0\0\0\0\0\0\0"), free);
}

/// A out and B in, sections 3 and 4 occupied: exit routes at B are refused by
/// 13, which names section 3.
const OCCUPIED: &[u8; 21] = b"SI\x01\x01\x02\0\0\0\0\0\0\0\0\0\0\x0c\0\0\0\0\0";

/// The same with an exit route at A, and with that alone.
const BOTH: &[u8; 21] = b"SI\x01\x01\x02\0\0\x01\0\0\0\0\0\0\0\x0c\0\0\0\0\0";
const ROUTE: &[u8; 21] = b"SI\x01\x01\x02\0\0\x01\0\0\0\0\0\0\0\0\0\0\0\0\0";

/// B out and A in, an exit route at B.
const ROUTE_AT_B: &[u8; 21] = b"SI\x01\x02\x01\0\0\0\x01\0\0\0\0\0\0\0\0\0\0\0\0";

/// Situations, events that they refuse, the refusals and what they name.
const NAMED: [(&[u8; 21], [u8; 2], u64, u64); 9] = [
    (OCCUPIED, [14, 1], 13, 3),
    (BOTH, [15, 1], 13, 3),
    (ROUTE, [14, 1], 15, 0),
    (ROUTE, [1, 1], 9, 0),
    (ROUTE, [3, 0], 9, 0),
    (ROUTE_AT_B, [1, 0], 9, 1),
    (ROUTE_AT_B, [4, 1], 9, 1),
    (ROUTE_AT_B, [6, 1], 9, 1),
    (ROUTE_AT_B, [14, 1], 5, 0),
];

/// "The name replaces one of 01's zeros": the one after the refusal. Where the
/// call is refused for another reason it stays.
#[test]
fn events_tell_the_name() {
    for (situation, event, refusal, name) in NAMED {
        let mut room = [7; EVENT_ROOM];
        assert_eq!(Plain::event(b"LB\x04\x02", situation, &event, &mut room), refusal + (name << 8));
        assert_eq!(Plain::event(b"LC\x04\x02\x01", situation, &event, &mut room), refusal + (name << 8));
        assert_eq!(Plain::event(b"LC\x04\x02\x02", situation, &event, &mut room), 20);
        assert_eq!(Plain::event(b"LB\x04\x02", situation, &[event[0], event[1], 0], &mut room), 20);
        assert_eq!(Plain::event(b"LB\x04\x04", situation, &event, &mut room), 1);
        let mut unsound = *situation;
        unsound[2] = 2;
        assert_eq!(Plain::event(b"LB\x04\x02", &unsound, &event, &mut room), 2);
        assert_eq!(Plain::event(b"LB\x04\x02", situation, &[event[0], 2], &mut room), 4);
        assert_eq!(Plain::event(b"LB\x04\x02", situation, &event, &mut room[1..]), 24);
        assert_eq!(room, [7; EVENT_ROOM]);
    }
}

/// A run tells the name too, in its last field; a call that is refused tells
/// none.
#[test]
fn runs_tell_the_name() {
    for (situation, [code, argument], refusal, name) in NAMED {
        // A reminder at A is accepted and changes none of the refusals.
        let lists = [*b"EV\x02\x0c\0", [code, argument, b'R', b'D', 0]].concat();
        let question = [b"LB\x04\x02", &situation[..], &lists, b"LN\x02"].concat();
        for (slot, place) in [([1, 2, 0, 0, 0, 0], 1), ([2, 1, 2, 0, 0, 0], 2), ([2, 2, 1, 0, 0, 0], 1)] {
            assert_eq!(Plain::run(&question, &slot), (place << 8) + (refusal << 16) + (name << 32));
        }
        assert_eq!(Plain::run(&question, &[1, 1, 0, 0, 0, 0]), 1 << 24);
        assert_eq!(Plain::run(&question, &[1, 2, 0, 0, 0]), 22);
        assert_eq!(Plain::run(&question, &[1, 2, 1, 0, 0, 0]), 22);
        assert_eq!(Plain::run(&question[1..], &[1, 2, 0, 0, 0, 0]), 20);
    }
}

/// "In either edition 20 for another last byte in LC", and before 1.
#[test]
fn the_last_byte_of_lc_is_1() {
    let (by_2024, situation) = (b"LB\x04\x02", SITUATIONS[0].0);
    for last in 0..=255 {
        for (sections, due) in [(4, 0), (1, 1)] {
            let plan = [b'L', b'C', sections, 2, last];
            let due = if last == 1 { due } else { 20 };
            assert_eq!(Plain::plan(&plan), due);
            assert_eq!(Plain::situation(&plan, situation), due);
            assert_eq!(told::Event::from(Plain::event(&plan, situation, &[1, 0], &mut [0; 96])).refusal, due);
            assert_eq!(Plain::aspects(&plan, situation, &mut [0; 8]), due);
            assert_eq!(Plain::reading(&plan, situation, &[5, 0]), due.into());
            let question = [&plan, situation, LISTS[0].0].concat();
            assert_eq!(Plain::question(&question), due);
            assert_eq!(told::Key::from(Plain::key(&question, &START, &mut [0; 6])).refusal, due);
            assert_eq!(told::Run::from(Plain::run(&question, &[0; SLOT])).refusal, due);
            // LB has no last byte.
            assert_eq!(Plain::plan(&[&by_2024[..], &[last]].concat()), 20);
        }
    }
}

/// A annulled by AFBLI with BILC, with BSLG, and with signals 2, 129 and 130
/// held.
const PAIRS: [&[u8; 21]; 5] = [
    b"SI\x01\0\0\x01\0\0\0\0\0\0\x01\0\0\0\0\0\0\0\0",
    b"SI\x01\0\0\x01\0\0\0\0\0\0\0\x01\0\0\0\0\0\0\0",
    b"SI\x01\0\0\x01\0\0\0\0\0\0\0\0\0\0\0\x02\0\0\0",
    b"SI\x01\0\0\x01\0\0\0\0\0\0\0\0\0\0\0\0\0\x01\0",
    b"SI\x01\0\0\x01\0\0\0\0\0\0\0\0\0\0\0\0\0\x02\0",
];

/// "In that edition a situation with such a pair is not sound": 2 in every
/// call, before 3 and 4; by 2024 it is accepted.
#[test]
fn pairs_are_refused_by_2012() {
    for situation in PAIRS {
        for (plan, due) in [(&b"LB\x04\x02"[..], 0), (b"LC\x04\x02\x01", 2)] {
            assert_eq!(Plain::situation(plan, situation), due);
            let event = Plain::event(plan, situation, &[5, 0], &mut [0; EVENT_ROOM]);
            assert_eq!(told::Event::from(event).refusal, due);
            let due_event = if due == 0 { 4 } else { 2 };
            assert_eq!(Plain::event(plan, situation, &[5, 2], &mut [0; EVENT_ROOM]), due_event);
            assert_eq!(Plain::aspects(plan, situation, &mut [0; 8]), due);
            assert_eq!(Plain::reading(plan, situation, &[3, 0]), if due == 0 { 1 << 8 } else { 2 });
            let question = [plan, situation, LISTS[0].0].concat();
            assert_eq!(Plain::question(&question), due);
            assert_eq!(told::Key::from(Plain::key(&question, &START, &mut [0; 6])).refusal, due);
            assert_eq!(told::Run::from(Plain::run(&question, &[0; SLOT])).refusal, due);
        }
    }
}

/// The annulment lifted, AFBLI and AFBLE are refused by 11, 16 and 17, after 4
/// and 24, and name nothing; in a run too.
#[test]
fn exclusions_are_refused_by_2012() {
    let (by_2024, by_2012) = (&b"LB\x04\x02"[..], &b"LC\x04\x02\x01"[..]);
    for (pair, due) in PAIRS.into_iter().zip([11, 16, 17, 17, 17]) {
        let mut situation = *pair;
        situation[5] = 0;
        for code in [3, 4] {
            let mut after = situation;
            after[5] = code - 2;
            let mut room = [7; EVENT_ROOM];
            assert_eq!(Plain::event(by_2012, &situation, &[code, 0], &mut room), due);
            assert_eq!(Plain::event(by_2012, &situation, &[code, 2], &mut room), 4);
            assert_eq!(Plain::event(by_2012, &situation, &[code, 0], &mut room[1..]), 24);
            assert_eq!(room, [7; EVENT_ROOM]);
            assert_eq!(Plain::event(by_2024, &situation, &[code, 0], &mut room), 21 << 16);
            assert!(room.starts_with(&after));
            for (plan, told) in [(by_2012, due << 16 | 1 << 8), (by_2024, 1 << 24)] {
                let question = [plan, &situation, b"EV\x01", &[code, 0], b"RD\0LN\x02"].concat();
                assert_eq!(Plain::run(&question, &[1, 1, 0, 0, 0, 0]), told);
            }
        }
    }
}

/// A candidate's slot runs as its events do one by one, and the readings hold
/// where each has its value.
#[test]
fn runs_are_events_one_by_one() {
    let r = &mut Random::new(3);
    for _ in 0..20_000 {
        let question = match r.below(4) {
            0 => generate::question(r, Search::Any),
            1 => generate::question_in_use(r),
            2 => generate::question_in_time(r, Search::Any),
            _ => generate::question_of_exclusions(r, Search::Any),
        };
        let bytes = generate::question_bytes(&question);
        let plan = &question.line().to_record()[..];
        let mut situation = question.situation().to_record().to_vec();
        assert!(bytes.starts_with(&[plan, &situation].concat()));
        let slot = generate::slot(r, &question, &[]);
        let mut right = told::Run::default();
        for (place, &listed) in (1..).zip(&slot[1..=usize::from(slot[0])]) {
            let event = question.events()[usize::from(listed - 1)].to_bytes();
            let mut room = [0; EVENT_ROOM];
            let told = told::Event::from(Plain::event(plan, &situation, &event, &mut room));
            if told.refusal != 0 {
                right = told::Run { place, event_refusal: told.refusal, name: told.name.into(), ..right };
                break;
            }
            situation = room[..told.length].to_vec();
        }
        if right.place == 0 {
            let holds = question.readings().iter().all(|reading| {
                let returned = Plain::reading(plan, &situation, &[reading.kind, reading.argument]);
                returned == u32::from(reading.value) << 8
            });
            right.holds = holds.into();
        }
        assert_eq!(told::Run::from(Plain::run(&bytes, &slot)), right);
    }
}

/// The aspects written are those that readings of kind 1 have.
#[test]
fn aspects_are_readings() {
    let r = &mut Random::new(4);
    for _ in 0..5_000 {
        let line = generate::line(r);
        let situation = if r.once_in(2) {
            generate::sound_or_reached(r, &line)
        } else {
            generate::reached_in_time(r, &line)
        };
        let (plan, situation) = (line.to_record(), situation.to_record());
        let n = line.sections();
        let mut room = vec![9; 2 * usize::from(n)];
        assert_eq!(Plain::aspects(&plan, &situation, &mut room), 0);
        for (signal, aspect) in (1..=n).chain(129..=128 + n).zip(room) {
            assert_eq!(Plain::reading(&plan, &situation, &[1, signal]), u32::from(aspect) << 8);
        }
    }
}

/// A number that a call returns reads back into its fields.
#[test]
fn numbers_read_back() {
    let event = told::Event { refusal: 13, name: 7, length: 96 };
    assert_eq!(u64::from(event), 13 + (7 << 8) + (96 << 16));
    assert_eq!(told::Event::from(u64::from(event)), event);
    let reading = told::Reading { refusal: 0, value: 2 };
    assert_eq!(u32::from(reading), 2 << 8);
    assert_eq!(told::Reading::from(u32::from(reading)), reading);
    let key = told::Key { refusal: 0, more: 1, count: 120_792 };
    assert_eq!(u64::from(key), (1 << 8) + (120_792 << 16));
    assert_eq!(told::Key::from(u64::from(key)), key);
    let run = told::Run { refusal: 0, place: 3, event_refusal: 13, holds: 0, name: 5 };
    assert_eq!(u64::from(run), (3 << 8) + (13 << 16) + (5 << 32));
    assert_eq!(told::Run::from(u64::from(run)), run);
}

/// A case written as text is that case again.
#[test]
fn cases_read_back() {
    let (plan, situation, room) = (b"LB\x04\x02", Situation::FRESH.to_record(), [1; 100]);
    let cases = [
        Case::plan(&[]),
        Case::situation(plan, &situation),
        Case::event(plan, &situation, &[1, 0], &room),
        Case::aspects(plan, &situation, &room[..8]),
        Case::reading(plan, &situation, &[2, 1]),
        Case::question(plan),
        Case::key(plan, &START, &[]),
        Case::run(plan, &[0; SLOT]),
        Case::mark(255, u32::MAX, 0, 1, 2, 3, &room[..13]),
    ];
    assert_eq!(cases.each_ref().map(|case| case.kind), Kind::ALL);
    for case in cases {
        let text = case.to_string();
        let kept = Kept::from_text(&text).expect("a case");
        assert_eq!((kept.case().kind, kept.case().numbers), (case.kind, case.numbers));
        assert_eq!((kept.case().read, kept.case().room.len()), (case.read, case.room.len()));
        assert_eq!(kept.case().to_string(), text);
        assert!(Kept::from_text(&format!("{text} 1")).is_none());
    }
    for text in ["", "plan", "plan 4", "number 256 1 1 1 1 1 13", "aspects 00 00 -1", "sheet 00"] {
        assert!(Kept::from_text(text).is_none());
    }
}

/// A line of a vectors file for each kind of answer.
#[test]
fn answers_are_those_of_the_vectors_files() {
    let plan = "4c420402";
    let fresh = "534901000000000000000000000000000000000000";
    let asked = "534901000000000000000001000000000000000000";
    let occupied = "5349010102000000000000000000000c0000000000";
    let counting = "534a010102000000000000000000000000000000000102";
    let counted = "534a010102000000000000000000000000000000000101";
    let by_2012 = "4c43040201";
    let annulled = "534901000001000000000000000000000000000000";
    let bilc = "534901000000000000000000010000000000000000";
    let bslg = "534901000000000000000000000100000000000000";
    let held = "534901000000000000000000000000000002000000";
    let pair = "534901000001000000000000000100000000000000";
    let of_exclusions = format!("{by_2012}{fresh}4556030800030009005244010300014c4e03");
    let question = format!("{plan}{fresh}455602010002015244010200014c4e02");
    let on_occupied = format!("{plan}{occupied}4556010e015244004c4e01");
    let on_counting = format!("{plan}{counting}45560217000e015244010401014c4e04");
    for (case, right) in [
        (format!("plan {plan}"), "0".to_string()),
        ("plan -".into(), "20".into()),
        (format!("sound {plan} {fresh}"), "0".into()),
        (format!("event {plan} {fresh} 0100 96"), format!("0 0 {asked}")),
        (format!("event {plan} {fresh} 0100 95"), "24 0 -".into()),
        (format!("event {plan} {occupied} 0e01 96"), "13 3 -".into()),
        (format!("event {plan} {occupied} 0e01 95"), "24 0 -".into()),
        (format!("event {plan} {counting} 0e01 96"), "13 0 -".into()),
        (format!("event {plan} {counting} 1700 96"), format!("0 0 {counted}")),
        (format!("event {plan} {counting} 1700 23"), "24 0 -".into()),
        (format!("sound {plan} {}0000", &counting[..42]), "20".into()),
        (format!("aspects {plan} {fresh} 8"), "0 0000000000000000".into()),
        (format!("aspects {plan} {fresh} 7"), "24 -".into()),
        (format!("reading {plan} {fresh} 0500"), "0 0".into()),
        (format!("reading {plan} {counting} 0500"), "0 1".into()),
        (format!("question {question}"), "0".into()),
        (format!("key {question} ff0000000000 6"), "0 1 0 020102000000".into()),
        (format!("run {question} 020102000000"), "0 0 0 0 1".into()),
        (format!("run {question} 020101000000"), "0 2 7 0 0".into()),
        (format!("run {on_occupied} 010100000000"), "0 1 13 3 0".into()),
        (format!("run {on_occupied} 010000000000"), "22 0 0 0 0".into()),
        (format!("run {on_counting} 020102000000"), "0 2 13 0 0".into()),
        (format!("run {on_counting} 030101020000"), "0 0 0 0 1".into()),
        ("number 1 1500 100 50 0 0 13".into(), "0 00000000000058420200000000".into()),
        (format!("keytext {question}"), "1 2|total 1|".into()),
        (format!("keytext {on_counting}"), "1 1 1 2|1 1 2|1 1 2 1|total 3|".into()),
        (format!("plan {by_2012}"), "0".into()),
        (format!("plan {}02", &by_2012[..8]), "20".into()),
        (format!("sound {by_2012} {annulled}"), "0".into()),
        (format!("sound {by_2012} {pair}"), "2".into()),
        (format!("sound {plan} {pair}"), "0".into()),
        (format!("event {by_2012} {bilc} 0300 96"), "11 0 -".into()),
        (format!("event {by_2012} {bslg} 0300 96"), "16 0 -".into()),
        (format!("event {plan} {bslg} 0300 96"), format!("0 0 {pair}")),
        (format!("event {by_2012} {held} 0400 96"), "17 0 -".into()),
        (format!("event {by_2012} {annulled} 0600 96"), "8 0 -".into()),
        (format!("event {by_2012} {annulled} 0a81 96"), "8 0 -".into()),
        (format!("run {of_exclusions} 020102000000"), "0 2 16 0 0".into()),
        (format!("run {of_exclusions} 030103020000"), "0 0 0 0 1".into()),
        (format!("keytext {of_exclusions}"), "1 3 2|2|total 2|".into()),
    ] {
        assert_eq!(answer_to(&case, plain), Some(right), "{case}");
    }
}

/// The declarations of the calls in C, as the list has them.
macro_rules! declarations {
    ($(
        $(#[$says:meta])*
        $kind:ident $name:ident $word:literal $symbol:ident
            ($($number:ident: $type:ty),*)
            ($($read:ident $read_length:ident),*)
            ($($room:ident $room_length:ident)?) -> $returned:ty;
    )*) => {
        [$(format!(
            "{} {}({});",
            in_c::<$returned>(),
            stringify!($symbol),
            [
                $(format!("{} {}", in_c::<$type>(), stringify!($number)),)*
                $(format!("const uint8_t *{}, size_t {}", stringify!($read), stringify!($read_length)),)*
                $(format!("uint8_t *{}, size_t {}", stringify!($room), stringify!($room_length)),)?
            ]
            .join(", ")
        )),*]
    };
}

fn in_c<T>() -> String {
    format!("uint{}_t", 8 * size_of::<T>())
}

#[test]
fn the_header_declares_these_calls() {
    let header = include_str!("../../include/folvkin.h");
    let header = header.split_whitespace().collect::<Vec<_>>().join(" ");
    let declarations = with_the_calls!(declarations);
    for declaration in &declarations {
        assert!(header.contains(declaration), "{declaration}");
    }
    assert_eq!(header.matches(" folvkin_").count(), declarations.len());
}
