//! What generated cases contain: each way in which an order meets what is on
//! the line, all that can become of mark and count, and plans of both editions
//! with all that the 2012 rules exclude.

use std::collections::BTreeMap;

use folvkin_compare::generate::{self, Search};
use folvkin_compare::interface::{Interface, Plain};
use folvkin_compare::plain::events::{
    AFBLE_ORDER, AFBLI_ORDER, BILC, BSLB, BSLG, COBB, EXIT_NORMAL, EXIT_SPECIAL, FREED, OCCUPIED, SECOND,
    SOBB,
};
use folvkin_compare::plain::keytext::whole_key;
use folvkin_compare::plain::run::{Run, run};
use folvkin_compare::plain::situation::{IN, LENGTH, NONE};
use folvkin_compare::plain::{Edition, Event, Line, Question, Refusal, Refused, Situation};
use folvkin_compare::random::Random;

/// Refusal, code, station, which stations hold exit routes (1 A, 2 B, 3 both),
/// and for 13 whether several sections are occupied.
type Way = (u8, u8, u8, u8, bool);

/// How often an order was refused in each way.
#[derive(Default)]
struct Ways(BTreeMap<Way, u32>);

impl Ways {
    fn add(&mut self, situation: &Situation, event: Event, by: Refused) {
        let refusal = by.refusal as u8;
        let routes = u8::from(situation.exit[0] != 0) + 2 * u8::from(situation.exit[1] != 0);
        let several = refusal == 13 && situation.occupied.count_ones() > 1;
        *self.0.entry((refusal, event.code, event.argument, routes, several)).or_default() += 1;
    }

    /// Each way that there is has come so often at least.
    fn all_came(&self, least: u32) {
        for own in 0..2 {
            let (at_own, at_other, at_both) = (1 << own, 2 >> own, 3);
            for routes in [at_own, at_other, at_both] {
                [SOBB, COBB].iter().for_each(|&code| self.came((9, code, own, routes, false), least));
            }
            for routes in [at_own, at_both] {
                let orders = [AFBLI_ORDER, AFBLE_ORDER, BILC];
                orders.iter().for_each(|&code| self.came((9, code, own, routes, false), least));
            }
            for code in [EXIT_NORMAL, EXIT_SPECIAL] {
                for (routes, several) in [(0, false), (0, true), (at_other, false), (at_other, true)] {
                    self.came((13, code, own, routes, several), least);
                }
                self.came((15, code, own, at_other, false), least);
            }
        }
    }

    fn came(&self, way: Way, least: u32) {
        let times = self.0.get(&way).copied().unwrap_or(0);
        assert!(times >= least, "{way:?} came {times} times");
    }
}

#[test]
fn events_meet_what_is_on_the_line() {
    let r = &mut Random::new(11);
    let mut ways = Ways::default();
    for _ in 0..20_000 {
        let line = generate::line(r);
        let situation = generate::in_use(r, &line);
        for code in generate::MET {
            for argument in 0..2 {
                let event = Event { code, argument };
                if let Err(by) = { situation }.apply_named(&line, event) {
                    ways.add(&situation, event, by);
                }
            }
        }
    }
    ways.all_came(100);
}

#[test]
fn runs_meet_what_is_on_the_line() {
    let r = &mut Random::new(12);
    let mut ways = Ways::default();
    for _ in 0..20_000 {
        let question = generate::question_in_use(r);
        for last in 1..=question.events().len() {
            let slot = generate::slot_to(r, &question, last);
            let Ok(Run::Stopped { place, by }) = run(&question, &slot) else { continue };
            let event_at = |place: u8| question.events()[usize::from(slot[usize::from(place)]) - 1];
            let mut situation = *question.situation();
            for place in 1..place {
                situation.apply(question.line(), event_at(place)).unwrap();
            }
            ways.add(&situation, event_at(place), by);
        }
    }
    ways.all_came(20);
}

/// How often each thing came.
#[derive(Default)]
struct Things(BTreeMap<&'static str, u32>);

impl Things {
    fn add(&mut self, thing: &'static str, came: bool) {
        *self.0.entry(thing).or_default() += u32::from(came);
    }

    /// What one event did to mark and count, on a sound situation.
    fn add_event(&mut self, line: &Line, situation: &mut Situation, event: Event) {
        let before = *situation;
        let told = situation.apply_named(line, event);
        let after = *situation;
        let accepted = |code: u8| event.code == code && told.is_ok();
        let by_count = told.is_err_and(|by| by.refusal as u8 == 13 && by.name == 0);
        for (exit, by_13, route) in [
            (EXIT_NORMAL, "13 with name 0, normal", "cleared by a normal route"),
            (EXIT_SPECIAL, "13 with name 0, special", "cleared by a special route"),
        ] {
            self.add(by_13, event.code == exit && by_count);
            self.add(route, accepted(exit) && before.mark == 1);
        }
        let mark_set = accepted(OCCUPIED) && before.mark < after.mark;
        self.add("mark set", mark_set);
        self.add("occupied, no mark", accepted(OCCUPIED) && after.mark == 0);
        self.add("occupied, mark kept", accepted(OCCUPIED) && before.mark == 1);
        self.add("count stopped", accepted(OCCUPIED) && before.count > 0);
        let owner = usize::from(event.argument > line.frontier());
        let is_first = event.argument == if owner == 0 { 1 } else { line.sections() };
        let is_in = before.link == 1 && before.orientation[owner] == IN && is_first;
        self.add("not turned", accepted(OCCUPIED) && before.count > 0 && is_in);
        self.add("count started", accepted(FREED) && after.count > 0);
        self.add("last one freed, no mark", accepted(FREED) && after.occupied == 0 && after.mark == 0);
        self.add("freed, not the last", accepted(FREED) && after.occupied != 0 && after.mark == 1);
        self.add("count lowered", accepted(SECOND) && after.count > 0);
        self.add("count ended", accepted(SECOND) && before.count > after.count && after.count == 0);
        self.add("second, none counted", accepted(SECOND) && before.count == 0);
        self.add("second, link down", accepted(SECOND) && before.link == 0);
    }

    fn all_came(&self, least: u32) {
        for (thing, &times) in &self.0 {
            assert!(times >= least, "{thing} came {times} times");
        }
    }
}

#[test]
fn stray_occupations_go_all_ways() {
    let r = &mut Random::new(15);
    let mut things = Things::default();
    for _ in 0..20_000 {
        let line = generate::line(r);
        let mut situation = generate::empty_line(r, &line);
        for event in generate::stray_events(r, &line) {
            things.add_event(&line, &mut situation, event);
            things.add_event(&line, &mut { situation }, generate::turning_event(r, &line));
        }
    }
    things.all_came(100);
}

#[test]
fn runs_with_seconds_go_all_ways() {
    let r = &mut Random::new(16);
    let mut things = Things::default();
    for _ in 0..40_000 {
        let question = generate::question_in_time(r, Search::Small);
        let lists_second = question.events().contains(&generate::SECOND);
        things.add("second listed", lists_second);
        for last in 1..=question.events().len() {
            let slot = generate::slot_to(r, &question, last);
            let mut situation = *question.situation();
            let stopped = match run(&question, &slot) {
                Ok(Run::Stopped { place, .. }) => place,
                _ => slot[0],
            };
            let mut seconds = 0;
            for place in 1..=stopped {
                let event = question.events()[usize::from(slot[usize::from(place)]) - 1];
                things.add_event(question.line(), &mut situation, event);
                seconds += u8::from(event == generate::SECOND);
            }
            things.add("several seconds", seconds > 1);
        }
    }
    things.all_came(20);
}

#[test]
fn lent_situations_are_of_both_records() {
    let r = &mut Random::new(17);
    let mut things = Things::default();
    for _ in 0..40_000 {
        let line = generate::line(r);
        let plan = line.to_record();
        let lent = generate::lent_situation(r, &line);
        let refusal = Plain::situation(&plan, &lent);
        let is_long = lent.starts_with(b"SJ");
        let body = lent.get(2..).and_then(|body| body.as_array::<LENGTH>());
        let [mark, count] = body.map_or([0, 0], |body| [body[LENGTH - 2], body[LENGTH - 1]]);
        things.add("SI, sound", !is_long && refusal == 0);
        things.add("SJ, sound, count running", is_long && refusal == 0 && count > 0);
        things.add("SJ, sound, section occupied", is_long && refusal == 0 && count == 0);
        things.add("SJ, mark above 1", is_long && refusal == 2 && mark > 1);
        things.add("SJ, count above 10", is_long && refusal == 2 && mark == 1 && count > 10);
        things.add("SJ, count without mark", is_long && refusal == 2 && mark == 0 && count > 0);
        things.add("SJ, pair in range, not sound", is_long && refusal == 2 && mark == 1 && count <= 10);
        things.add("SJ, both zero", is_long && refusal == 20 && body.is_some() && [mark, count] == [0, 0]);
        things.add("SJ, one byte missing", is_long && lent.len() == LENGTH + 1);
        things.add("SJ, both missing", is_long && lent.len() == LENGTH);
        things.add("SJ, bytes left over", is_long && lent.len() > LENGTH + 2);
        things.add("SI, mark and count left over", lent.starts_with(b"SI") && body.is_some());
    }
    things.all_came(20);
}

/// Refusal (0 for accepted), code and station of an order that the 2012 rules
/// exclude; of BSLB the station is the signal's.
type Exclusion = (u8, u8, usize);

/// How often each came, by the rules of an edition.
#[derive(Default)]
struct Exclusions(BTreeMap<(bool, Exclusion), u32>);

impl Exclusions {
    fn add(&mut self, line: &Line, event: Event, told: Result<(), Refusal>) {
        let station = match event.code {
            BSLB => line.owner(event.argument & 127),
            _ => usize::from(event.argument),
        };
        let refusal = told.map_or_else(|refusal| refusal as u8, |()| 0);
        let by_2012 = line.edition() == Edition::Of2012;
        *self.0.entry((by_2012, (refusal, event.code, station))).or_default() += 1;
    }

    fn times(&self, by_2012: bool, exclusion: Exclusion) -> u32 {
        self.0.get(&(by_2012, exclusion)).copied().unwrap_or(0)
    }

    /// Each has come so often at least by 2012; by 2024 the order was accepted
    /// as often, and BSLG refused by 8.
    fn all_came(&self, least: u32) {
        for station in 0..2 {
            for (refusals, code) in [
                (&[0, 11, 16, 17][..], AFBLI_ORDER),
                (&[0, 10, 11, 16, 17], AFBLE_ORDER),
                (&[0, 8], BILC),
                (&[0, 8], BSLG),
                (&[0, 8], BSLB),
            ] {
                for &refusal in refusals {
                    let times = self.times(true, (refusal, code, station));
                    assert!(times >= least, "{code} refused by {refusal} at {station} came {times} times");
                }
                let times = self.times(false, (0, code, station));
                assert!(times >= least, "{code} accepted at {station} by 2024 came {times} times");
            }
            assert!(self.times(false, (8, BSLG, station)) >= least);
            for (refusal, code) in
                [(11, AFBLI_ORDER), (16, AFBLI_ORDER), (17, AFBLI_ORDER), (8, BILC), (8, BSLB)]
            {
                assert_eq!(self.times(false, (refusal, code, station)), 0);
            }
        }
    }
}

#[test]
fn orders_meet_what_they_exclude() {
    let r = &mut Random::new(20);
    let mut exclusions = Exclusions::default();
    let mut things = Things::default();
    for _ in 0..10_000 {
        let line = generate::line(r);
        let paired = generate::paired(r, &line);
        let unpaired = generate::unpaired(r, &line, paired);
        let [by_2024, by_2012] = Edition::ALL.map(|edition| line.under(edition));
        assert!([by_2024, by_2012].iter().all(|line| unpaired.is_sound(line)));
        things.add_pairs(&by_2012, &paired);
        for (line, situation) in [(by_2024, paired), (by_2024, unpaired), (by_2012, unpaired)] {
            for code in generate::EXCLUSIVE {
                for argument in 0..2 {
                    let event = Event { code, argument };
                    exclusions.add(&line, event, { situation }.apply(&line, event));
                }
            }
            for _ in 0..4 {
                let event = Event { code: BSLB, argument: generate::block_signal(r, &line) };
                let told = { situation }.apply(&line, event);
                exclusions.add(&line, event, told);
                things.add_held(&line, &situation, event.argument, told);
            }
        }
    }
    exclusions.all_came(500);
    things.all_came(200);
}

impl Things {
    /// How annulments stand beside what the 2012 rules exclude.
    fn add_pairs(&mut self, by_2012: &Line, s: &Situation) {
        let is_sound = s.is_sound(by_2012);
        let excluded = |own: usize| {
            let area = by_2012.area(own);
            let is_set = |stations: u8| stations >> own & 1 == 1;
            [is_set(s.bilc), is_set(s.bslg), s.held_towards_b & area != 0, s.held_towards_a & area != 0]
        };
        for (own, names) in [
            ["A with BILC alone", "A with BSLG alone", "A with BSLB towards B", "A with BSLB towards A"],
            ["B with BILC alone", "B with BSLG alone", "B with BSLB towards B", "B with BSLB towards A"],
        ]
        .into_iter()
        .enumerate()
        {
            let excluded = excluded(own);
            let is_one = excluded.into_iter().filter(|&so| so).count() == 1;
            for (name, so) in names.into_iter().zip(excluded) {
                self.add(name, s.annulment[own] != NONE && is_one && so && !is_sound);
            }
        }
        let [a, b] = s.annulment.map(|annulment| annulment != NONE);
        let [at_a, at_b] = [0, 1].map(|own| excluded(own).contains(&true));
        self.add("A annulled, all at B", is_sound && a && !b && at_b);
        self.add("B annulled, all at A", is_sound && !a && b && at_a);
        self.add("both annulled, nothing beside", is_sound && a && b);
        self.add("none annulled, something there", is_sound && !a && !b && at_a && at_b);
        self.add("pairs at both", !is_sound && a && b && at_a && at_b);
    }

    /// A block signal that is to be held.
    fn add_held(&mut self, line: &Line, s: &Situation, signal: u8, told: Result<(), Refusal>) {
        let own = line.owner(signal & 127);
        let by_8 = told == Err(Refusal::Annulled);
        self.add("BSLB towards B by 8", by_8 && signal < 128);
        self.add("BSLB towards A by 8", by_8 && signal > 128);
        let accepted = told.is_ok() && line.edition() == Edition::Of2012;
        self.add("BSLB, the other annulled", accepted && s.annulment[own ^ 1] != NONE);
    }
}

#[test]
fn runs_meet_what_they_exclude() {
    let r = &mut Random::new(21);
    let mut exclusions = Exclusions::default();
    let mut things = Things::default();
    for _ in 0..20_000 {
        let question = generate::question_of_exclusions(r, Search::Small);
        let by_both = Edition::ALL
            .map(|edition| Question::read(&generate::question_under(&question, edition)).expect("accepted"));
        for last in 1..=question.events().len() {
            let slot = generate::slot_to(r, &question, last);
            for question in &by_both {
                let mut situation = *question.situation();
                for &place in &slot[1..=usize::from(slot[0])] {
                    let event = question.events()[usize::from(place) - 1];
                    let told = situation.apply(question.line(), event);
                    exclusions.add(question.line(), event, told);
                    if told.is_err() {
                        break;
                    }
                }
            }
        }
        let [by_2024, by_2012] = by_both.map(|question| whole_key(&question).len());
        things.add("fewer in the key of 2012", by_2012 < by_2024 && by_2012 > 0);
        things.add("none in the key of 2012", by_2012 == 0 && by_2024 > 0);
        things.add("as many in both keys", by_2012 == by_2024 && by_2012 > 0);
        things.add("asked by 2024", question.line().edition() == Edition::Of2024);
        things.add("asked by 2012", question.line().edition() == Edition::Of2012);
    }
    exclusions.all_came(100);
    things.all_came(50);
}

#[test]
fn lent_plans_are_of_both_records() {
    let r = &mut Random::new(22);
    let mut things = Things::default();
    for _ in 0..40_000 {
        let (lent, line) = generate::lent_plan(r);
        let refusal = Plain::plan(&lent);
        let [is_lb, is_lc] = [b"LB", b"LC"].map(|letters| lent.starts_with(letters));
        things.add("LB, accepted", is_lb && refusal == 0);
        things.add("LB, numbers out of range", is_lb && refusal == 1);
        things.add("LB, cut", is_lb && lent.len() < 4);
        things.add("LB, one byte more", is_lb && lent.len() == 5);
        things.add("LB, a 1 more", is_lb && lent.len() == 5 && lent[4] == 1);
        things.add("LC, accepted", is_lc && refusal == 0);
        things.add("LC, numbers out of range", is_lc && refusal == 1);
        things.add("LC, another last byte", is_lc && refusal == 20 && lent.len() == 5);
        things.add("LC, last byte 0", is_lc && lent.len() == 5 && lent[4] == 0);
        things.add("LC, last byte missing", is_lc && lent.len() == 4);
        things.add("LC, cut", is_lc && lent.len() < 4);
        things.add("LC, bytes left over", is_lc && lent.len() > 5);
        things.add("other letters", !is_lb && !is_lc && lent.len() >= 4);
        // Situations that are sound by 2024 alone, and by 2012.
        let situation = generate::lent_situation(r, &line);
        let by = |edition| Plain::situation(&line.under(edition).to_record(), &situation);
        let is_asked_by_2012 = line.edition() == Edition::Of2012;
        let [by_2024, by_2012] = Edition::ALL.map(by);
        things.add("sound by 2024 alone, asked by 2012", is_asked_by_2012 && [by_2024, by_2012] == [0, 2]);
        things.add("sound by 2024 alone, asked by 2024", !is_asked_by_2012 && [by_2024, by_2012] == [0, 2]);
        things.add("sound by both, asked by 2012", is_asked_by_2012 && [by_2024, by_2012] == [0, 0]);
    }
    things.all_came(20);
}
