//! The marked examples of document 01, laws that it states, and requests 01, 02
//! and 05 of document 02, on the plain implementation.

use folvkin_compare::cases::from_hex;
use folvkin_compare::generate::{self, Search};
use folvkin_compare::plain::key::{SLOT, START, key};
use folvkin_compare::plain::keytext::{key_text, whole_key};
use folvkin_compare::plain::marking::{RIGHT, WRONG, mark};
use folvkin_compare::plain::run::{Run, run};
use folvkin_compare::plain::situation::{AFBLE, IN, NONE, OUT};
use folvkin_compare::plain::{
    Aspects, Edition, Event, Line, Parts, Plan, Question, Refusal, Refused, Situation, readings,
};
use folvkin_compare::random::Random;

const A: u8 = 0;
const B: u8 = 1;

fn line(edition: Edition, sections: u8, frontier: u8) -> Line {
    Line::new(Plan::new(edition, sections, frontier)).unwrap()
}

/// Plan 4, 2, from the fresh situation.
#[derive(Clone, Copy)]
struct Example {
    line: Line,
    situation: Situation,
}

impl Example {
    fn new() -> Example {
        Example { line: line(Edition::Of2024, 4, 2), situation: Situation::FRESH }
    }

    /// The same by the rules of an edition, where it is sound too.
    fn under(self, edition: Edition) -> Example {
        Example { line: self.line.under(edition), ..self }
    }

    fn event(&mut self, code: u8, argument: u8) -> u8 {
        self.told(code, argument).0
    }

    /// The refusal and what it names.
    fn told(&mut self, code: u8, argument: u8) -> (u8, u8) {
        assert!(self.situation.is_sound(&self.line));
        match self.situation.try_event(&self.line, Event { code, argument }) {
            Ok(()) => (0, 0),
            Err(Refused { refusal, name }) => (refusal as u8, name),
        }
    }

    /// The events are all accepted.
    fn after(events: &[(u8, u8)]) -> Example {
        Example::new().then(events)
    }

    /// Events that are all accepted, by the 2012 rules.
    fn after_by_2012(events: &[(u8, u8)]) -> Example {
        Example::new().under(Edition::Of2012).then(events)
    }

    fn then(mut self, events: &[(u8, u8)]) -> Example {
        for &(code, argument) in events {
            assert_eq!(self.event(code, argument), 0);
        }
        self
    }

    /// Mark and count.
    fn stray(&self) -> (u8, u8) {
        (self.situation.mark, self.situation.count)
    }

    fn line_read(&self) -> u8 {
        readings::value(&self.line, &self.situation, readings::LINE, 0)
    }

    fn aspects(&self) -> [u8; 8] {
        let mut room = [9; 8];
        Aspects::of(&self.line, &self.situation).write(&self.line, &mut room);
        room
    }
}

#[test]
fn example_1() {
    assert_eq!(Example::new().event(14, A), 12);
}

#[test]
fn example_2() {
    let mut example = Example::after(&[(1, A), (2, B)]);
    assert_eq!(example.aspects(), [0, 2, 2, 1, 0, 0, 0, 0]);
    assert_eq!(example.event(14, A), 0);
    assert_eq!(example.aspects()[0], 2);
    assert_eq!(example.event(14, B), 15);
}

#[test]
fn example_3() {
    let example = Example::after(&[(1, A), (2, B), (21, 0)]);
    assert_eq!(example.aspects()[..4], [0, 1, 2, 1]);
}

#[test]
fn example_4() {
    let example = Example::after(&[(4, A), (4, B)]);
    assert_eq!(example.aspects(), [0, 1, 0, 0, 0, 0, 1, 0]);
}

#[test]
fn example_5() {
    assert_eq!(Example::after(&[(4, A), (19, 2)]).situation.annulment[0], NONE);
    assert_eq!(Example::after(&[(4, A), (19, 1), (19, 2)]).situation.annulment[0], AFBLE);
}

#[test]
fn example_6() {
    Example::after(&[(8, A), (3, A)]);
    assert_eq!(Example::after(&[(3, A)]).event(8, A), 8);
}

#[test]
fn example_7() {
    assert_eq!(Example::after(&[(4, A)]).event(14, A), 8);
    assert_eq!(Example::after(&[(4, A)]).event(15, A), 0);
    assert_eq!(Example::after(&[(4, A), (6, A)]).event(15, A), 11);
}

#[test]
fn example_8() {
    let mut example = Example::after(&[(1, A), (2, B), (21, 0), (4, A)]);
    assert_eq!(example.situation.orientation, [NONE, IN]);
    assert_eq!(example.event(22, 0), 0);
    assert_eq!(example.situation.orientation, [NONE, NONE]);
}

#[test]
fn example_9() {
    let typed = |above: u32| mark(1, 1500, 100, 50, 1, (above as f32 / 262_144.0).to_bits()).unwrap();
    let right = typed(14_168_883);
    assert_eq!((right.verdict, right.error, right.model), (RIGHT, 49, 54.0));
    let wrong = typed(14_168_884);
    assert_eq!((wrong.verdict, wrong.error), (WRONG, 50));
}

#[test]
fn example_10() {
    // The floats next to the exact answer, and all of both signs in steps.
    let near = mark(1, 1000, 70, 0, 1, 0).unwrap().model.to_bits();
    let patterns = (near - 1000..near + 1000).chain((0..0xff80_0000).step_by(65_521));
    for pattern in patterns.filter(|&pattern| f32::from_bits(pattern).is_finite()) {
        assert_eq!(mark(1, 1000, 70, 0, 1, pattern).unwrap().verdict, WRONG);
    }
}

#[test]
fn the_run_by_program() {
    let parts = Parts {
        plan: Plan::new(Edition::Of2024, 4, 2),
        situation: Situation::FRESH.to_bytes(),
        events: &[[1, A], [2, B], [14, A], [17, B]],
        readings: &[[1, 1, 2]],
        length: 4,
    };
    let mut bytes = [0; 64];
    let length = parts.write(&mut bytes).unwrap();
    assert_eq!(key_text(&bytes[..length]), "1 2 3\n1 2 3 4\n1 2 4 3\n1 4 2 3\n4 1 2 3\ntotal 5\n");
    assert_eq!(key_text(&bytes[..length - 1]), "refused 20\n");
}

/// "13 stays for an occupied section and now names the lowest occupied one."
#[test]
fn refusal_13_names_the_lowest_section() {
    for code in [14, 15] {
        let mut example = Example::after(&[(1, A), (2, B), (19, 4)]);
        // B's first section has turned the line.
        assert_eq!(example.told(code, A), (13, 4));
        for (event, section, lowest) in [(19, 2, 2), (19, 3, 2), (19, 1, 1), (20, 1, 2), (20, 2, 3)] {
            assert_eq!(example.event(event, section), 0);
            assert_eq!(example.told(code, A), (13, lowest));
        }
        let mut example = Example::after(&[(1, A), (2, B), (19, 3), (19, 4)]);
        assert_eq!(example.told(code, B), (13, 3));
    }
}

/// "15 is for a free track with an exit route at the other station."
#[test]
fn refusal_15_is_for_a_free_track() {
    for (own, other) in [(A, B), (B, A)] {
        for (set, asked) in [(14, 14), (14, 15), (15, 14), (15, 15)] {
            let mut example = Example::after(&[(1, other), (2, own), (set, other)]);
            assert_eq!(example.told(asked, own), (15, 0));
            assert_eq!(example.event(16, other), 0);
            assert_eq!(example.told(asked, own), (0, 0));
        }
    }
}

/// "When both hold, 13 is given."
#[test]
fn refusal_13_goes_before_15() {
    for code in [14, 15] {
        let mut example = Example::after(&[(1, A), (2, B), (14, A), (19, 2)]);
        assert_eq!(example.told(code, B), (13, 2));
        assert_eq!(example.event(20, 2), 0);
        assert_eq!(example.told(code, B), (15, 0));
        // What is checked before still is: 6, and for the normal one 14.
        assert_eq!(example.event(12, B), 0);
        assert_eq!(example.told(code, B), if code == 14 { (14, 0) } else { (15, 0) });
        assert_eq!((example.event(13, B), example.event(21, 0)), (0, 0));
        assert_eq!(example.told(code, B), (6, 0));
    }
}

/// "Refusal 9 names the station that holds the route, own where own is
/// checked, else A first if both do."
#[test]
fn refusal_9_names_the_station() {
    for (exit, any) in [([1, 0], A), ([0, 1], B), ([1, 1], A), ([2, 0], A), ([0, 2], B), ([2, 1], A)] {
        let mut example = Example::new();
        example.situation.exit = exit;
        for own in [A, B] {
            assert_eq!({ example }.told(1, own), (9, any));
            let mut asked = example;
            asked.situation.pending = 2 - own;
            assert_eq!(asked.told(2, own), (9, any));
            let due = if exit[usize::from(own)] != 0 { (9, own) } else { (0, 0) };
            for code in [3, 4, 6] {
                assert_eq!({ example }.told(code, own), due);
            }
        }
    }
}

/// The names by the words of the request, on generated situations; no other
/// refusal has one.
#[test]
fn only_9_and_13_name() {
    let r = &mut Random::new(9);
    for _ in 0..200_000 {
        let line = generate::line(r);
        let situation = if r.once_in(2) { generate::in_use(r, &line) } else { generate::sound(r, &line) };
        let event = generate::event(r, &line);
        let Err(Refused { refusal, name }) = { situation }.try_event(&line, event) else { continue };
        let is_occupied = |k: u8| situation.occupied >> (k - 1) & 1 == 1;
        let lowest = (1..=line.sections()).find(|&k| is_occupied(k));
        let holds_route = |station: u8| situation.exit[usize::from(station)] != 0;
        match (refusal as u8, event.code) {
            (13, 14 | 15) => assert_eq!(Some(name), lowest),
            (15, 14 | 15) => assert_eq!((name, lowest, holds_route(event.argument ^ 1)), (0, None, true)),
            (9, 1 | 2) => assert_eq!(Some(name), [A, B].into_iter().find(|&station| holds_route(station))),
            (9, 3 | 4 | 6) => assert_eq!((name, holds_route(name)), (event.argument, true)),
            (5..=8 | 10..=12 | 14 | 16 | 17, _) => assert_eq!(name, 0),
            other => panic!("{other:?}"),
        }
    }
}

/// A candidate's run tells the name beside place and refusal.
#[test]
fn runs_tell_the_name() {
    let parts = Parts {
        plan: Plan::new(Edition::Of2024, 4, 2),
        situation: Situation::FRESH.to_bytes(),
        events: &[[1, A], [2, B], [14, A], [14, B], [19, 3], [19, 2], [6, A], [1, B], [2, A], [6, B]],
        readings: &[],
        length: 5,
    };
    let question = parts.accept().unwrap();
    for (slot, place, refusal, name) in [
        ([4, 1, 2, 3, 4, 0], 4, Refusal::OtherExitRoute, 0),
        ([5, 1, 2, 5, 6, 4], 5, Refusal::TrackNotFree, 2),
        ([4, 1, 2, 5, 4, 0], 4, Refusal::TrackNotFree, 3),
        ([4, 1, 2, 3, 7, 0], 4, Refusal::ExitRoute, A),
        ([4, 1, 2, 3, 8, 0], 4, Refusal::ExitRoute, A),
        ([4, 8, 9, 4, 10, 0], 4, Refusal::ExitRoute, B),
        ([4, 8, 9, 4, 1, 0], 4, Refusal::ExitRoute, B),
        ([2, 1, 1, 0, 0, 0], 2, Refusal::Pending, 0),
    ] {
        let by = Refused { refusal, name };
        assert_eq!(run(&question, &slot), Ok(Run::Stopped { place, by }));
    }
}

/// Papers that list exit routes, and how many sequences their keys have; see
/// NOTES.md. Before request 02 the first had 227: in six of them section 1 is
/// occupied and freed and A turns the line within the ten seconds.
const PAPERS: [(&str, usize); 2] = [
    (
        "4c42080453490100000000000000000100000000000000000045560c0201010102000e000f0113011401110103000500150016005244020200010104024c4e05",
        221,
    ),
    (
        "4c42050353490001020000000000000000010008000000000045560c040005000f001301130213031404160009000a02030111005244020300020103014c4e05",
        4_213,
    ),
];

/// "Keys do not change": an exit route is refused just where document 01
/// refuses it, whose 13 is 13 or 15 now.
#[test]
fn keys_stay_as_they_were() {
    let r = &mut Random::new(10);
    for _ in 0..200_000 {
        let line = generate::line(r);
        let s = generate::in_use(r, &line);
        let (code, own) = (r.pick(&[14, 15]), r.index(2));
        let under_afble = code == 15 && s.annulment[own] == AFBLE;
        let checks = [
            (5, s.exit[own] != 0),
            (11, s.bilc >> own & 1 == 1),
            (8, !under_afble && s.annulment[own] != NONE),
            (14, code == 14 && s.reminder >> own & 1 == 1),
            (6, !under_afble && s.link == 0),
            (12, !under_afble && s.orientation[own] == NONE),
            (13, !under_afble && s.orientation[own] == IN && !s.line_is_free()),
        ];
        let as_in_01 = checks.into_iter().find(|check| check.1).map_or(0, |check| check.0);
        let mut after = s;
        let given = match after.try_event(&line, Event { code, argument: own as u8 }) {
            Ok(()) => 0,
            Err(Refused { refusal: Refusal::OtherExitRoute, .. }) => 13,
            Err(Refused { refusal, .. }) => refusal as u8,
        };
        assert_eq!(given, as_in_01);
        assert!(given != 0 || under_afble || after.orientation[own] == OUT);
    }
    for (paper, sequences) in PAPERS {
        let question = Question::read(&from_hex(paper).unwrap()).unwrap();
        assert_eq!(whole_key(&question).len(), sequences * SLOT);
    }
}

/// "A mark is set when a section becomes occupied, unexpected by 01, while
/// neither station has an exit route."
#[test]
fn a_stray_occupation_sets_the_mark() {
    for section in 1..=4 {
        assert_eq!(Example::after(&[(19, section)]).stray(), (1, 0));
    }
    // Unexpected, but a station has an exit route; and expected.
    let mut example = Example::after(&[(1, A), (2, B), (14, A), (19, 3), (20, 3), (19, 1)]);
    assert_eq!(example.stray(), (0, 0));
    // Expected with no exit route, then unexpected, then expected: it stays.
    assert_eq!((example.event(16, A), example.event(19, 2)), (0, 0));
    assert_eq!(example.stray(), (0, 0));
    assert_eq!(example.event(19, 4), 0);
    assert_eq!(example.stray(), (1, 0));
    assert_eq!(example.event(19, 3), 0);
    assert_eq!(example.stray(), (1, 0));
    // AFBLE that stays on its own first section does not stop it.
    let example = Example::after(&[(4, A), (19, 1)]);
    assert_eq!((example.situation.annulment[0], example.stray()), (AFBLE, (1, 0)));
    // A special exit route of either station does.
    for station in [A, B] {
        assert_eq!(Example::after(&[(4, station), (15, station), (19, 2)]).stray(), (0, 0));
    }
}

/// "When the last section clears with that mark set and no exit route set, a
/// count of 10 starts."
#[test]
fn the_count_starts_with_the_last_section() {
    let mut example = Example::after(&[(19, 2), (19, 3), (20, 2)]);
    assert_eq!(example.stray(), (1, 0));
    assert_eq!(example.event(20, 3), 0);
    assert_eq!(example.stray(), (1, 10));
    // With link down too; without the mark not.
    assert_eq!(Example::after(&[(21, 0), (19, 2), (20, 2)]).stray(), (1, 10));
    assert_eq!(Example::after(&[(1, A), (2, B), (14, A), (19, 1), (20, 1)]).stray(), (0, 0));
    assert_eq!(Example::after(&[(1, A), (2, B), (14, A), (19, 1), (16, A), (20, 1)]).stray(), (0, 0));
}

/// "While it runs the line is not free for refusal 13, for automatic
/// reorientation and for reading 5. Each second lowers it; when that brings it
/// to 0 the mark goes; with no count running a second changes nothing."
#[test]
fn ten_seconds_pass() {
    let mut example = Example::after(&[(1, A), (2, B), (19, 3), (23, 0), (20, 3)]);
    for count in (1..=10).rev() {
        assert_eq!((example.stray(), example.line_read()), ((1, count), 1));
        for code in [14, 15] {
            // "A running count alone gives 13 with section 0."
            assert_eq!({ example }.told(code, B), (13, 0));
        }
        // B's first section does not turn the line; the occupation "sets the
        // count to 0 and keeps the mark".
        let mut occupied = example;
        assert_eq!(occupied.event(19, 4), 0);
        assert_eq!((occupied.situation.orientation, occupied.stray()), ([OUT, IN], (1, 0)));
        // What does not ask for a free line goes on.
        assert_eq!({ example }.event(1, B), 0);
        assert_eq!(example.event(23, 0), 0);
    }
    assert_eq!((example.stray(), example.line_read()), ((0, 0), 0));
    let before = example.situation;
    assert_eq!((example.event(23, 0), example.situation), (0, before));
    for code in [14, 15] {
        let mut route = example;
        assert_eq!(route.told(code, B), (0, 0));
        assert_eq!(route.situation.orientation, [IN, OUT]);
    }
    assert_eq!(example.event(19, 4), 0);
    assert_eq!((example.situation.orientation, example.stray()), ([IN, OUT], (1, 0)));
}

/// A second is accepted whatever the situation, and only the count feels it.
#[test]
fn seconds_are_always_accepted() {
    let r = &mut Random::new(13);
    for _ in 0..50_000 {
        let line = generate::line(r);
        let before =
            if r.once_in(2) { generate::reached_in_time(r, &line) } else { generate::sound(r, &line) };
        let mut after = before;
        assert_eq!(after.try_event(&line, generate::SECOND), Ok(()));
        let count = before.count.saturating_sub(1);
        let mark = if before.count == 1 { 0 } else { before.mark };
        assert_eq!(after, Situation { mark, count, ..before });
        let argument = r.from(1, 255) as u8;
        let refused = after.try_event(&line, Event { argument, ..generate::SECOND });
        assert_eq!(refused, Err(Refusal::Argument.into()));
    }
}

/// "An accepted exit route clears both": by the station that is out, under
/// AFBLE, with sections occupied or the count running.
#[test]
fn an_exit_route_clears_both() {
    for (events, route) in [
        (&[(1, A), (2, B), (19, 3)][..], (14, A)),
        (&[(1, A), (2, B), (19, 3)], (15, A)),
        (&[(1, A), (2, B), (19, 3), (20, 3)], (14, A)),
        (&[(1, B), (2, A), (19, 3), (20, 3), (23, 0)], (15, B)),
        (&[(4, A), (19, 3), (20, 3)], (15, A)),
        (&[(4, B), (19, 1)], (15, B)),
        (&[(4, B), (19, 1), (20, 1), (21, 0)], (15, B)),
    ] {
        let mut example = Example::after(events);
        assert_eq!(example.situation.mark, 1);
        assert_eq!(example.told(route.0, route.1), (0, 0));
        assert_eq!(example.stray(), (0, 0));
        // What is freed under the route or after it starts nothing.
        for section in 1..=4 {
            example.event(20, section);
        }
        assert_eq!(example.stray(), (0, 0));
    }
}

/// "A sound situation has a count of 0 to 10, a count above 0 only with the
/// mark set and no section occupied, and a mark only with no exit route and
/// either a section occupied or a count above 0."
#[test]
fn marks_and_counts_are_sound() {
    let line = line(Edition::Of2024, 4, 2);
    for (occupied, exit) in [(0, [0, 0]), (4, [0, 0]), (0, [1, 0]), (0, [0, 2]), (9, [1, 1])] {
        for mark in 0..=255 {
            for count in 0..=255 {
                let situation = Situation { occupied, exit, mark, count, ..Situation::FRESH };
                let right = match (mark, count) {
                    (0, 0) => true,
                    (1, 0) => exit == [0, 0] && occupied != 0,
                    (1, 1..=10) => exit == [0, 0] && occupied == 0,
                    _ => false,
                };
                assert_eq!(situation.is_sound(&line), right);
            }
        }
    }
}

/// What an event does to mark and count, by the words of the request; all else
/// is as it was without them, but for what a running count holds up.
#[test]
fn the_rest_is_as_before() {
    let r = &mut Random::new(14);
    let (mut by_13, mut not_turned) = (0, 0);
    for _ in 0..300_000 {
        let line = generate::line(r);
        let before = generate::reached_in_time(r, &line);
        let event = generate::event_in_time(r, &line, &before);
        let mut after = before;
        let told = after.try_event(&line, event);
        let without = |situation| Situation { mark: 0, count: 0, ..situation };
        let mut plainly = without(before);
        let told_plainly = plainly.try_event(&line, event);
        let own = usize::from(event.argument & 1);
        if before.count > 0 && matches!(event.code, 14 | 15) && before.orientation[own] == IN && told.is_err()
        {
            if told_plainly.is_ok() {
                assert_eq!(told, Err(Refusal::TrackNotFree.into()));
                assert_eq!(plainly.orientation[own], OUT);
                by_13 += 1;
            } else {
                assert_eq!(told, told_plainly);
            }
            continue;
        }
        assert_eq!(told, told_plainly);
        if before.count > 0 && event.code == 19 && plainly.orientation != before.orientation {
            assert_eq!(after.orientation, before.orientation);
            plainly.orientation = before.orientation;
            not_turned += 1;
        }
        assert_eq!(without(after), without(plainly));
        let right = match event.code {
            _ if told.is_err() => (before.mark, before.count),
            14 | 15 => (0, 0),
            19 => (before.mark | u8::from(is_stray(&line, &before, event.argument)), 0),
            20 if before.mark == 1 && after.occupied == 0 => (1, 10),
            23 if before.count > 0 => (u8::from(before.count > 1), before.count - 1),
            _ => (before.mark, before.count),
        };
        assert_eq!((after.mark, after.count), right);
    }
    assert!(by_13 > 1_000 && not_turned > 100, "{by_13} and {not_turned}");
}

/// With no exit route, a section that becomes occupied is expected only if a
/// train can have come from the section before it.
fn is_stray(line: &Line, s: &Situation, section: u8) -> bool {
    let b = line.frontier();
    let owner = usize::from(section > b);
    let towards_b = match (s.area_direction(owner), owner) {
        (OUT, 0) | (IN, 1) => true,
        (OUT, 1) | (IN, 0) => false,
        _ => return s.exit == [0, 0],
    };
    let before = if towards_b { section - 1 } else { section + 1 };
    let across = if towards_b { section == b + 1 } else { section == b };
    let is_occupied = line.is_section(before) && s.occupied >> (before - 1) & 1 == 1;
    s.exit == [0, 0] && !(is_occupied && (s.link == 1 || !across))
}

/// The sixth and the seventh example and their like by the 2012 rules, which
/// end in a refusal; by those of 2024 the last order is accepted, but for BSLG
/// after AFBLI.
#[test]
fn examples_by_2012() {
    for (events, order, by_2012, by_2024) in [
        (&[(8, A)][..], (3, A), 16, 0),
        (&[(8, A)], (4, A), 16, 0),
        (&[(3, A)], (8, A), 8, 8),
        (&[(4, A)], (8, A), 8, 8),
        (&[(6, A)], (3, A), 11, 0),
        (&[(6, A)], (4, A), 11, 0),
        (&[(3, A)], (6, A), 8, 0),
        (&[(4, A)], (6, A), 8, 0),
        (&[(10, 2)], (3, A), 17, 0),
        (&[(10, 129)], (3, A), 17, 0),
        (&[(10, 130)], (4, A), 17, 0),
        (&[(10, 3)], (4, B), 17, 0),
        (&[(10, 4)], (3, B), 17, 0),
        (&[(10, 131)], (3, B), 17, 0),
        (&[(3, A)], (10, 2), 8, 0),
        (&[(4, A)], (10, 129), 8, 0),
        (&[(4, A)], (10, 130), 8, 0),
        (&[(3, B)], (10, 3), 8, 0),
        (&[(4, B)], (10, 4), 8, 0),
        (&[(3, B)], (10, 131), 8, 0),
    ] {
        assert_eq!(Example::after_by_2012(events).told(order.0, order.1), (by_2012, 0));
        assert_eq!(Example::after(events).told(order.0, order.1), (by_2024, 0));
    }
}

/// "Any BSLB in the station's own area", BILC and BSLG of the station itself:
/// what the other station has does not matter.
#[test]
fn the_other_station_does_not_matter() {
    for annulment in [3, 4] {
        for at_a in [(6, A), (8, A), (10, 2), (10, 129), (10, 130)] {
            assert_eq!(Example::after_by_2012(&[at_a]).event(annulment, B), 0);
            assert_eq!(Example::after_by_2012(&[(annulment, B)]).event(at_a.0, at_a.1), 0);
        }
        for at_b in [(6, B), (8, B), (10, 3), (10, 4), (10, 131)] {
            assert_eq!(Example::after_by_2012(&[at_b]).event(annulment, A), 0);
            assert_eq!(Example::after_by_2012(&[(annulment, A)]).event(at_b.0, at_b.1), 0);
        }
    }
}

/// "For AFBLI and AFBLE after all checks in 01, 11 BILC, 16 BSLG, 17 BSLB, in
/// that order": of all that stands in the way one after the other is taken
/// away.
#[test]
fn annulments_are_refused_in_order() {
    for own in [A, B] {
        let (held, route) = if own == A { (2, (14, A)) } else { (131, (14, B)) };
        for annulment in [3, 4] {
            let mut example = Example::after_by_2012(&[(6, own), (8, own), (10, held), (17, own), (1, own)]);
            assert_eq!(example.told(annulment, own), (7, 0));
            assert_eq!(example.event(2, own ^ 1), 0);
            let mut with_route = example.then(&[(7, own), route]);
            assert_eq!(with_route.told(annulment, own), (9, own));
            if annulment == 4 {
                assert_eq!(example.told(annulment, own), (10, 0));
                assert_eq!(example.event(18, own), 0);
            }
            for (refusal, release) in [(11, (7, own)), (16, (9, own)), (17, (11, held))] {
                assert_eq!(example.told(annulment, own), (refusal, 0));
                assert_eq!(example.event(release.0, release.1), 0);
            }
            assert_eq!(example.told(annulment, own), (0, 0));
            assert_eq!(example.told(annulment, own), (8, 0));
        }
    }
}

/// "For BILC and BSLB, 8 own annulled, after all else": BILC 5, 9, 8; BSLB 5,
/// 8. (On a sound situation 5 and 8 never meet.)
#[test]
fn own_annulled_goes_after_all_else() {
    for own in [A, B] {
        let mut example = Example::after_by_2012(&[(4, own), (15, own)]);
        assert_eq!(example.told(6, own), (9, own));
        assert_eq!(example.event(16, own), 0);
        assert_eq!(example.told(6, own), (8, 0));
        assert_eq!(example.event(5, own), 0);
        assert_eq!(example.told(6, own), (0, 0));
        assert_eq!(example.told(6, own), (5, 0));
        let (signal, other) = if own == A { (130, 3) } else { (3, 130) };
        let mut example = Example::after_by_2012(&[(3, own), (10, other)]);
        assert_eq!(example.told(10, other), (5, 0));
        assert_eq!(example.told(10, signal), (8, 0));
        assert_eq!(example.then(&[(5, own)]).told(10, signal), (0, 0));
    }
}

/// "The releases check nothing new", and an annulment that an occupation takes
/// away excludes nothing any more.
#[test]
fn what_was_released_excludes_nothing() {
    for annulment in [3, 4] {
        for (set, release) in [((6, A), (7, A)), ((8, A), (9, A)), ((10, 129), (11, 129))] {
            let mut example = Example::after_by_2012(&[set, release, (annulment, A)]);
            assert_eq!(example.event(set.0, set.1), 8);
            assert_eq!(example.event(release.0, release.1), 5);
            assert_eq!({ example }.then(&[(5, A)]).event(set.0, set.1), 0);
            assert_eq!(example.then(&[(19, 2)]).event(set.0, set.1), 0);
        }
    }
}

/// Whether an annulled station has BILC, BSLG or a held signal in its area, by
/// the words of the request.
fn has_pair(line: &Line, s: &Situation) -> bool {
    (0..2u8).any(|station| {
        let owns = |section: u8| (section > line.frontier()) == (station == B);
        let held = s.held_towards_b | s.held_towards_a;
        let is_held = |section: u8| held >> (section - 1) & 1 == 1;
        let set = |stations: u8| stations >> station & 1 == 1;
        s.annulment[usize::from(station)] != NONE
            && (set(s.bilc) || set(s.bslg) || (1..=line.sections()).any(|k| owns(k) && is_held(k)))
    })
}

/// "In that edition a situation with such a pair is not sound": every
/// annulment, BILC, BSLG and held signals of the plans with four sections.
#[test]
fn pairs_are_not_sound() {
    for frontier in 1..=3 {
        let (by_2024, by_2012) = (line(Edition::Of2024, 4, frontier), line(Edition::Of2012, 4, frontier));
        let mut sound = [0; 2];
        for annulments in 0..9 {
            for stations in 0..16 {
                for held in 0..64 {
                    let situation = Situation {
                        annulment: [annulments / 3, annulments % 3],
                        bilc: stations / 4,
                        bslg: stations % 4,
                        held_towards_b: (held / 8) << 1,
                        held_towards_a: held % 8,
                        ..Situation::FRESH
                    };
                    assert!(situation.is_sound(&by_2024));
                    assert_eq!(situation.is_sound(&by_2012), !has_pair(&by_2012, &situation));
                    sound[usize::from(situation.is_sound(&by_2012))] += 1;
                }
            }
        }
        // A station is annulled in two ways with nothing beside it, or not
        // annulled with anything; the two areas have six block signals.
        let in_a = 2 * frontier - 1;
        let of_station = |signals: u8| 2 + 4 * (1 << signals);
        assert_eq!(sound[1], of_station(in_a) * of_station(6 - in_a));
    }
}

/// By 2012 an event is refused as by 2024 or, where 2024 accepts it, by 11, 16,
/// 17 or 8 in the words of the request; accepted, it leads to the same.
#[test]
fn by_2012_as_by_2024_but_for_the_exclusions() {
    let r = &mut Random::new(18);
    let mut excluded = [0; 18];
    for _ in 0..400_000 {
        let line = generate::line_of(r, Edition::Of2012);
        let by_2024 = line.under(Edition::Of2024);
        let before = match r.below(4) {
            0 => generate::reached_in_time(r, &line),
            1 => generate::in_use(r, &line),
            _ => {
                let paired = generate::paired(r, &line);
                assert!(paired.is_sound(&by_2024));
                assert_eq!(paired.is_sound(&line), !has_pair(&line, &paired));
                generate::unpaired(r, &line, paired)
            }
        };
        assert!(before.is_sound(&line) && before.is_sound(&by_2024));
        let event =
            if r.once_in(3) { generate::event(r, &line) } else { generate::exclusive_event(r, &line) };
        let (mut after, mut after_by_2024) = (before, before);
        let told = after.try_event(&line, event);
        let told_by_2024 = after_by_2024.try_event(&by_2024, event);
        let is_set = |stations: u8| stations >> event.argument & 1 == 1;
        let in_own_area = |section: u8| (section > line.frontier()) == (event.argument == B);
        let held = before.held_towards_b | before.held_towards_a;
        let due = match event.code {
            3 | 4 if is_set(before.bilc) => 11,
            3 | 4 if is_set(before.bslg) => 16,
            3 | 4 if (1..=line.sections()).any(|k| in_own_area(k) && held >> (k - 1) & 1 == 1) => 17,
            6 if before.annulment[usize::from(event.argument)] != NONE => 8,
            10 if before.annulment[usize::from(event.argument & 127 > line.frontier())] != NONE => 8,
            _ => 0,
        };
        if told_by_2024.is_err() || due == 0 {
            assert_eq!((told, after), (told_by_2024, after_by_2024));
        } else {
            let Err(Refused { refusal, name }) = told else { panic!("{event:?} is accepted") };
            assert_eq!((refusal as u8, name, after), (due, 0, before));
            excluded[usize::from(due)] += 1;
        }
    }
    assert!([8, 11, 16, 17].iter().all(|&refusal| excluded[refusal] > 5_000), "{excluded:?}");
}

/// A key by 2012 is the key by 2024 without the sequences that an exclusion
/// stops.
#[test]
fn keys_lose_what_is_excluded() {
    let r = &mut Random::new(19);
    let mut lost = 0;
    for _ in 0..2_000 {
        let question = generate::question_of_exclusions(r, Search::Small);
        let [by_2024, by_2012] = Edition::ALL
            .map(|edition| Question::read(&generate::question_under(&question, edition)).unwrap());
        let is_excluded = |slot: &[u8; SLOT]| match run(&by_2012, slot) {
            Ok(Run::Stopped { by: Refused { refusal, name: 0 }, .. }) => {
                matches!(refusal as u8, 8 | 11 | 16 | 17)
            }
            _ => false,
        };
        let (all, kept) = (whole_key(&by_2024), whole_key(&by_2012));
        let (all, kept) = (all.as_chunks::<SLOT>().0, kept.as_chunks::<SLOT>().0);
        assert!(all.iter().filter(|slot| !is_excluded(slot)).eq(kept));
        lost += all.len() - kept.len();
    }
    assert!(lost > 10_000, "{lost}");
}

/// The paper `rules-2012.bin` and how many sequences its key has, by 2012 as it
/// stands and by 2024.
#[test]
fn the_paper_of_2012() {
    let paper = include_bytes!("../../papers/rules-2012.bin");
    let question = Question::read(paper).unwrap();
    assert_eq!(question.line().edition(), Edition::Of2012);
    assert_eq!(whole_key(&question).len(), BY_2012 * SLOT);
    let by_2024 = Question::read(&generate::question_under(&question, Edition::Of2024)).unwrap();
    assert_eq!(whole_key(&by_2024).len(), BY_2024 * SLOT);
}

const BY_2012: usize = 46;
const BY_2024: usize = 564;

/// "Every accepted event leads from a sound situation to a sound one."
#[test]
fn soundness_is_kept() {
    let r = &mut Random::new(5);
    for _ in 0..200_000 {
        let line = generate::line(r);
        let mut situation = generate::sound(r, &line);
        let event = generate::event(r, &line);
        let before = situation;
        match situation.try_event(&line, event) {
            Ok(()) => assert!(situation.is_sound(&line) && situation != before),
            Err(_) => assert_eq!(situation, before),
        }
    }
    for _ in 0..200_000 {
        let line = generate::line(r);
        let paired = generate::paired(r, &line);
        let before = generate::unpaired(r, &line, paired);
        let mut situation = before;
        match situation.try_event(&line, generate::exclusive_event(r, &line)) {
            Ok(()) => assert!(situation.is_sound(&line) && situation != before),
            Err(_) => assert_eq!(situation, before),
        }
    }
    for _ in 0..200_000 {
        let line = generate::line(r);
        let mut situation = generate::marked(r, &line);
        assert!(situation.is_sound(&line));
        let event = generate::event_in_time(r, &line, &situation);
        let before = situation;
        match situation.try_event(&line, event) {
            Ok(()) => assert!(situation.is_sound(&line) && (event.code == 23 || situation != before)),
            Err(_) => assert_eq!(situation, before),
        }
    }
}

/// A question of any kind.
fn question(r: &mut Random, search: Search) -> Question {
    match r.below(3) {
        0 => generate::question(r, search),
        1 => generate::question_in_time(r, search),
        _ => generate::question_of_exclusions(r, search),
    }
}

/// A key with seconds: an exit route at B, which is in, when the count of 2 has
/// run off.
#[test]
fn keys_wait_for_the_count() {
    let situation = Situation { orientation: [OUT, IN], mark: 1, count: 2, ..Situation::FRESH };
    let parts = Parts {
        plan: Plan::new(Edition::Of2024, 4, 2),
        situation: situation.to_bytes(),
        events: &[[23, 0], [14, B]],
        readings: &[[4, B, 1]],
        length: 4,
    };
    let mut bytes = [0; 64];
    let length = parts.write(&mut bytes).unwrap();
    assert_eq!(&bytes[4..6], b"SJ");
    assert_eq!(key_text(&bytes[..length]), "1 1 1 2\n1 1 2\n1 1 2 1\ntotal 3\n");
    let line_free = Parts { readings: &[[5, 0, 0]], ..parts }.accept().unwrap();
    assert_eq!(
        whole_key(&line_free).as_chunks::<SLOT>().0,
        [[2, 1, 1, 0, 0, 0], [3, 1, 1, 1, 0, 0], [4, 1, 1, 1, 1, 0]]
    );
}

/// Writing an accepted question and reading it back gives it again; room too
/// short is 24 and keeps its bytes.
#[test]
fn questions_come_back() {
    let r = &mut Random::new(6);
    for _ in 0..5_000 {
        let question = question(r, Search::Any);
        let mut room = [0xa5; 96];
        let length = question.write(&mut room).unwrap();
        assert_eq!(Question::read(&room[..length]), Ok(question));
        assert!(room[length..].iter().all(|&byte| byte == 0xa5));
        let mut short = [0x5a; 96];
        assert_eq!(question.write(&mut short[..length - 1]), Err(Refusal::Room));
        assert_eq!(short, [0x5a; 96]);
    }
}

/// The key holds just the sequences whose run ends with all readings held, in
/// order; parts joined are the whole; after any slot come the later answers.
#[test]
fn keys_are_what_they_should_be() {
    let r = &mut Random::new(7);
    for _ in 0..300 {
        let question = question(r, Search::Small);
        let whole = whole_key(&question);
        let slots = whole.as_chunks::<SLOT>().0;
        // Every sequence, in the order of places from the left.
        let count = question.events().len() as u8;
        let mut sequences: Vec<Vec<u8>> = vec![vec![]];
        let mut from = 0;
        for _ in 0..question.length() {
            let to = sequences.len();
            for index in from..to {
                for place in 1..=count {
                    let longer = [&sequences[index][..], &[place]].concat();
                    sequences.push(longer);
                }
            }
            from = to;
        }
        sequences.sort();
        let slot_of = |places: &Vec<u8>| {
            let mut slot = [0; SLOT];
            slot[0] = places.len() as u8;
            slot[1..=places.len()].copy_from_slice(places);
            slot
        };
        let all: Vec<_> = sequences.iter().map(slot_of).collect();
        let answers: Vec<_> = all
            .iter()
            .filter(|slot| run(&question, &slot[..]) == Ok(Run::Ended { holds: true }))
            .copied()
            .collect();
        assert_eq!(slots, answers);
        // After any slot, an answer or not.
        for _ in 0..10 {
            let after = generate::slot(r, &question, &whole);
            let later: Vec<_> = answers
                .iter()
                .filter(|slot| slot[1..] > after[1..] || (slot[1..] == after[1..] && slot[0] > after[0]))
                .collect();
            let mut room = [3; 10 * SLOT + 2];
            let written = key(&question, &after, &mut room).unwrap();
            assert_eq!(written.count, later.len().min(10));
            assert_eq!(written.more, later.len() > 10);
            for (slot, right) in room.as_chunks::<SLOT>().0.iter().zip(later.iter().take(10)) {
                assert_eq!(slot, *right);
            }
            assert!(room[written.count * SLOT..].iter().all(|&byte| byte == 3));
        }
        let mut room = [0; SLOT];
        assert_eq!(key(&question, &START, &mut room[..5]), Err(Refusal::Room));
    }
}

/// "Typed in the unit asked, at a tolerance of 32 or more, the model value is
/// marked right", and it is the nearest float.
#[test]
fn model_values_are_right() {
    for kind in 1..=2u8 {
        for speed in 1..=200 {
            for amount in (1..=if kind == 1 { 20_000 } else { 10_000 }).step_by(37) {
                let model = mark(kind, amount, speed, 32, 0, 0).unwrap().model;
                let line = mark(kind, amount, speed, 32, kind, model.to_bits()).unwrap();
                assert_eq!(line.verdict, RIGHT);
                let exact = if kind == 1 {
                    18.0 * f64::from(amount) / (5.0 * f64::from(speed))
                } else {
                    5.0 * f64::from(speed) * f64::from(amount) / 18.0
                };
                assert_eq!(model, exact as f32);
            }
        }
    }
}

/// The marks by whole numbers of any size: the float as a fraction with the
/// denominator 2^149, in sums of 64-bit limbs.
#[test]
fn marks_agree_with_long_sums() {
    let r = &mut Random::new(8);
    for _ in 0..100_000 {
        let [kind, amount, speed, tolerance, unit, pattern] = generate::typed(r);
        let Ok(line) = mark(kind as u8, amount, speed, tolerance, unit as u8, pattern) else { continue };
        if line.verdict > RIGHT {
            continue;
        }
        let (above, below) = if kind == 1 { (18 * amount, 5 * speed) } else { (5 * speed * amount, 18) };
        // Value times 2^149.
        let exponent = pattern >> 23 & 255;
        let fraction = pattern & 0x7f_ffff;
        let (significand, shift) =
            if exponent == 0 { (fraction, 0) } else { (fraction | 0x80_0000, exponent - 1) };
        let value = Long::new(significand.into()).times(1000 * u64::from(below)).shifted(shift);
        let exact = Long::new(above.into()).times(1000).shifted(149);
        let allowed = Long::new(tolerance.into()).times(below.into()).shifted(149);
        let is_negative = pattern >> 31 == 1;
        let (size, is_less) = if is_negative {
            (value.plus(&exact), true)
        } else if value.0.iter().rev().ge(exact.0.iter().rev()) {
            (value.minus(&exact), false)
        } else {
            (exact.minus(&value), true)
        };
        let is_right = size.0.iter().rev().le(allowed.0.iter().rev());
        assert_eq!(line.verdict == RIGHT, is_right, "{pattern}");
        // The error's size e is the greatest with e * below * 2^149 <= size.
        let error = line.error.unsigned_abs();
        let bound = |e: u32| Long::new(e.into()).times(below.into()).shifted(149);
        assert!(bound(error).0.iter().rev().le(size.0.iter().rev()));
        assert!(error == 1_000_000 || bound(error + 1).0.iter().rev().gt(size.0.iter().rev()));
        assert!(error == 0 || is_less == (line.error < 0));
    }
}

/// A whole number of eight limbs, the lowest first.
struct Long([u64; 8]);

impl Long {
    fn new(number: u64) -> Long {
        Long([number, 0, 0, 0, 0, 0, 0, 0])
    }

    fn times(mut self, by: u64) -> Long {
        let mut carry = 0;
        for limb in &mut self.0 {
            let product = u128::from(*limb) * u128::from(by) + carry;
            *limb = product as u64;
            carry = product >> 64;
        }
        self
    }

    fn shifted(self, by: u32) -> Long {
        (0..by).fold(self, |long, _| long.times(2))
    }

    fn plus(&self, other: &Long) -> Long {
        let mut carry = 0;
        Long(std::array::from_fn(|at| {
            let sum = u128::from(self.0[at]) + u128::from(other.0[at]) + carry;
            carry = sum >> 64;
            sum as u64
        }))
    }

    fn minus(&self, other: &Long) -> Long {
        let mut borrow = false;
        Long(std::array::from_fn(|at| {
            let (first, one) = self.0[at].overflowing_sub(other.0[at]);
            let (second, two) = first.overflowing_sub(u64::from(borrow));
            borrow = one || two;
            second
        }))
    }
}
