//! Runs generated cases through the plain implementation and the library:
//!
//!     compare [--seed S] [--count N] [--numbers | --small-line] [--trace]
//!
//! The cases depend on seed and count alone. `--numbers` runs typed numbers
//! alone. `--small-line` runs every situation in range of the plan 2, 1
//! instead, by both editions, each sound one with every mark and count, and
//! every event, aspect and reading on all that are sound. `--trace` prints
//! every case before its call, so that the last line tells which one ended the
//! program.
//!
//! What a later case takes from an earlier one (a situation that an event led
//! to, a slot to go on after) is what both gave, or the earlier case counts as
//! a difference.

use std::collections::BTreeMap;
use std::fmt;
use std::process::ExitCode;
use std::time::Instant;

#[cfg(linked)]
use folvkin_compare::Library;
#[cfg(bridged)]
use folvkin_compare::bridge::Bridge;
#[cfg(bridged)]
use folvkin_compare::cases::Kept;
use folvkin_compare::cases::{Case, Kind, Outcome, hex};
use folvkin_compare::generate::{self, Search};
use folvkin_compare::interface::{EVENT_ROOM, Plain};
#[cfg(linked)]
use folvkin_compare::lent::Lent;
use folvkin_compare::lent::Placed;
use folvkin_compare::plain::key::{SLOT, START};
use folvkin_compare::plain::records::{self, LC, SI, SJ, plan_record};
use folvkin_compare::plain::situation::{LENGTH, SHORT_LENGTH, TEN_SECONDS};
use folvkin_compare::plain::{
    Edition, Event, Line, Parts, Plan, Question, Situation, aspects, events, readings,
};
use folvkin_compare::random::Random;
use folvkin_compare::told;

/// How many differences of each kind are printed.
const SHOWN: u64 = 5;

/// The greatest room lent.
const LARGEST_ROOM: usize = 300_000 * SLOT;

fn main() -> ExitCode {
    let mut seed = 1;
    let mut count = 10_000_000;
    let mut numbers = false;
    let mut small_line = false;
    let mut trace = false;
    let mut words = std::env::args().skip(1);
    while let Some(word) = words.next() {
        let mut number = || words.next().and_then(|text| text.replace('_', "").parse::<u64>().ok());
        match word.as_str() {
            "--seed" => match number() {
                Some(given) => seed = given,
                None => return usage(),
            },
            "--count" => match number() {
                Some(given) => count = given,
                None => return usage(),
            },
            "--numbers" => numbers = true,
            "--small-line" => small_line = true,
            "--trace" => trace = true,
            _ => return usage(),
        }
    }
    let started = Instant::now();
    let mut comparison = Comparison::new(seed, count, trace);
    if small_line {
        comparison.limit = u64::MAX;
        comparison.small_line();
    } else if numbers {
        comparison.numbers();
    } else {
        comparison.generated();
    }
    comparison.finish();
    comparison.report(started.elapsed().as_secs_f64());
    ExitCode::from(u8::from(comparison.differences() != 0 || comparison.met.clear_both_ways != 0))
}

fn usage() -> ExitCode {
    eprintln!("usage: compare [--seed S] [--count N] [--numbers | --small-line] [--trace]");
    ExitCode::from(2)
}

/// What is counted of one kind of case.
#[derive(Default)]
struct Tally {
    cases: u64,
    differences: u64,
    refusals: Refusals,
    /// The refusals of the events at which runs stop.
    stops: Refusals,
}

/// How often each refusal came, by what it names.
#[derive(Default)]
struct Refusals(BTreeMap<u8, BTreeMap<u32, u64>>);

impl Refusals {
    fn add(&mut self, refusal: u8, name: u32) {
        *self.0.entry(refusal).or_default().entry(name).or_default() += 1;
    }

    fn times(&self, refusal: u8) -> u64 {
        self.0.get(&refusal).map_or(0, |names| names.values().sum())
    }

    fn times_with(&self, refusal: u8, name: u32) -> u64 {
        self.0.get(&refusal).and_then(|names| names.get(&name)).copied().unwrap_or(0)
    }

    fn all(&self) -> u64 {
        self.0.keys().map(|&refusal| self.times(refusal)).sum()
    }
}

/// Each refusal with its times, after it those of its names if it has some.
impl fmt::Display for Refusals {
    fn fmt(&self, f: &mut fmt::Formatter) -> fmt::Result {
        for (&refusal, names) in self.0.iter().filter(|&(&refusal, _)| refusal != 0) {
            write!(f, ", {refusal}: {}", self.times(refusal))?;
            if names.keys().any(|&name| name != 0) {
                let names: Vec<_> = names.iter().map(|(name, times)| format!("{name}: {times}")).collect();
                write!(f, " ({})", names.join(", "))?;
            }
        }
        Ok(())
    }
}

impl Tally {
    fn count(&mut self, kind: Kind, returned: u64) {
        self.cases += 1;
        match kind {
            Kind::Event => {
                let told = told::Event::from(returned);
                self.refusals.add(told.refusal, told.name.into());
            }
            Kind::Run => {
                let told = told::Run::from(returned);
                self.refusals.add(told.refusal, 0);
                if told.event_refusal != 0 {
                    self.stops.add(told.event_refusal, told.name);
                }
            }
            _ => self.refusals.add(returned as u8, 0),
        }
    }
}

/// What is counted of mark and count: what accepted events did to them, line
/// readings that tell them, and records SJ. Then the first rule: sections with
/// one signal off red, and with both, which is never to be.
#[derive(Default)]
struct Met {
    marks_set: u64,
    counts_started: u64,
    counts_ended: u64,
    counts_stopped: u64,
    marks_cleared: u64,
    readings: u64,
    written: u64,
    accepted: u64,
    both_zero: u64,
    clear_one_way: u64,
    clear_both_ways: u64,
}

impl Met {
    /// The room is what it is after the call.
    fn count(&mut self, case: &Case, returned: u64, room: &[u8]) {
        let before = situation_of(case);
        let refusal = returned as u8;
        if before.starts_with(b"SJ") {
            self.accepted += u64::from(refusal == 0);
            self.both_zero += u64::from(refusal == 20 && before.len() == SJ && before.ends_with(&[0, 0]));
        }
        if refusal != 0 {
            return;
        }
        let [mark, count] = mark_and_count(before);
        match case.kind {
            Kind::Event => {
                let after = &room[..told::Event::from(returned).length];
                let [mark_after, count_after] = mark_and_count(after);
                self.written += u64::from(after.starts_with(b"SJ"));
                match case.read[2][0] {
                    events::OCCUPIED => {
                        self.marks_set += u64::from(mark < mark_after);
                        self.counts_stopped += u64::from(count > 0);
                    }
                    events::FREED => self.counts_started += u64::from(count_after > 0),
                    events::SECOND => self.counts_ended += u64::from(count > count_after && count_after == 0),
                    events::EXIT_NORMAL | events::EXIT_SPECIAL => self.marks_cleared += u64::from(mark > 0),
                    _ => {}
                }
            }
            Kind::Reading => self.readings += u64::from(case.read[2][0] == readings::LINE && count > 0),
            Kind::Aspects => {
                let sections = usize::from(case.read[0][2]);
                let (towards_b, towards_a) = room[..2 * sections].split_at(sections);
                for (&b, &a) in towards_b.iter().zip(towards_a) {
                    self.clear_one_way += u64::from((b != aspects::RED) != (a != aspects::RED));
                    self.clear_both_ways += u64::from(b != aspects::RED && a != aspects::RED);
                }
            }
            _ => {}
        }
    }
}

impl fmt::Display for Met {
    fn fmt(&self, f: &mut fmt::Formatter) -> fmt::Result {
        write!(f, "mark set {}, cleared by an exit route {}; ", self.marks_set, self.marks_cleared)?;
        write!(f, "count started {}, ended {}, ", self.counts_started, self.counts_ended)?;
        write!(f, "stopped by an occupation {}, read as line {}; ", self.counts_stopped, self.readings)?;
        write!(f, "SJ accepted {}, written {}, ", self.accepted, self.written)?;
        writeln!(f, "refused with both zero {}", self.both_zero)?;
        write!(f, "sections off red one way {}, ", self.clear_one_way)?;
        write!(f, "both ways {}", self.clear_both_ways)
    }
}

/// What is counted of the editions: cases with a plan of either, records LC
/// with another last byte, situations that are sound by 2024 alone, and what
/// the 2012 rules alone refuse.
#[derive(Default)]
struct Editions {
    of_2024: u64,
    of_2012: u64,
    last_bytes: u64,
    not_sound: u64,
    events: Refusals,
    /// The events at which runs stop.
    stops: Refusals,
}

impl Editions {
    fn count(&mut self, case: &Case, returned: u64) {
        let plan = match records::plan(&mut { case.read[0] }) {
            Ok(plan) => plan,
            Err(_) => {
                let is_lc = case.read[0].starts_with(b"LC") && case.read[0].len() >= LC;
                self.last_bytes += u64::from(is_lc);
                return;
            }
        };
        match plan.edition {
            Edition::Of2024 => self.of_2024 += 1,
            Edition::Of2012 => self.of_2012 += 1,
        }
        match (case.kind, returned as u8) {
            (_, 2) => self.not_sound += u64::from(is_sound_by_2024(plan, situation_of(case))),
            (Kind::Event, refusal) if is_by_2012(case.read[2], refusal) => self.events.add(refusal, 0),
            (Kind::Run, 0) => {
                let told = told::Run::from(returned);
                if told.event_refusal != 0 && is_by_2012(&stopped_at(case, told.place), told.event_refusal) {
                    self.stops.add(told.event_refusal, 0);
                }
            }
            _ => {}
        }
    }
}

impl fmt::Display for Editions {
    fn fmt(&self, f: &mut fmt::Formatter) -> fmt::Result {
        write!(f, "cases by 2024 {}, by 2012 {}; ", self.of_2024, self.of_2012)?;
        writeln!(f, "LC with another last byte {}", self.last_bytes)?;
        write!(f, "by the 2012 rules alone: not sound {}; ", self.not_sound)?;
        write!(f, "event refused {}{}; ", self.events.all(), self.events)?;
        write!(f, "run stopped {}{}", self.stops.all(), self.stops)
    }
}

/// Whether only the 2012 rules refuse an event so.
fn is_by_2012(event: &[u8], refusal: u8) -> bool {
    let code = event.first().copied().unwrap_or(0);
    match code {
        events::AFBLI_ORDER | events::AFBLE_ORDER => matches!(refusal, 11 | 16 | 17),
        events::BILC | events::BSLB => refusal == 8,
        _ => false,
    }
}

/// The event at a place of the slot that a case runs.
fn stopped_at(case: &Case, place: u8) -> [u8; 2] {
    let parts = Parts::split(case.read[0]).expect("a question that is run");
    parts.events[usize::from(case.read[1][usize::from(place)]) - 1]
}

/// Whether the situation of a plan is sound by the rules of 2024.
fn is_sound_by_2024(plan: Plan, mut situation: &[u8]) -> bool {
    let Ok(line) = Line::new(plan) else { return false };
    let line = line.under(Edition::Of2024);
    records::situation(&mut situation).is_ok_and(|body| Situation::read(&line, &body).is_ok())
}

/// What stands in the place of the situation's record, with the bytes that
/// follow it in a question; nothing where the case has none.
fn situation_of<'a>(case: &Case<'a>) -> &'a [u8] {
    match case.kind {
        Kind::Plan | Kind::Mark => &[],
        Kind::Question | Kind::Key | Kind::Run => {
            let rest = &mut { case.read[0] };
            if records::plan(rest).is_ok() { &rest[..rest.len().min(SJ)] } else { &[] }
        }
        Kind::Situation | Kind::Event | Kind::Aspects | Kind::Reading => case.read[1],
    }
}

/// Mark and count of an accepted situation's record.
fn mark_and_count(record: &[u8]) -> [u8; 2] {
    match *record {
        [b'S', b'J', .., mark, count] => [mark, count],
        _ => [0, 0],
    }
}

/// Where the slices of a case lie: those that are read, then the room.
type Places = [Placed; 4];

/// What the plain implementation made of a case: what it returned, and its
/// room after.
struct ByPlain<'a> {
    returned: u64,
    room: &'a [u8],
}

/// Makes the library's calls, on guarded memory.
#[cfg(linked)]
struct Caller {
    read: [Lent; 3],
    room: Lent,
}

#[cfg(linked)]
impl Caller {
    fn new() -> Caller {
        Caller { read: std::array::from_fn(|_| Lent::new(4096)), room: Lent::new(LARGEST_ROOM) }
    }

    /// The outcome of the library's call if it is another than the plain one
    /// or if anything else was touched.
    fn other_outcome(
        &mut self,
        case: &Case,
        [first, second, third, room]: Places,
        by_plain: &ByPlain,
        looks_far: bool,
    ) -> Option<Outcome> {
        for ((lent, bytes), placed) in self.read.iter_mut().zip(case.read).zip([first, second, third]) {
            lent.lend(bytes, placed);
        }
        self.room.lend(case.room, room);
        let read = self.read.each_ref().map(Lent::bytes);
        let returned = case.call::<Library>(read, self.room.bytes_mut());
        let read_only = self.read.iter().zip(case.read).all(|(lent, bytes)| lent.bytes() == bytes);
        let guarded = self.are_guarded(looks_far);
        if returned == by_plain.returned && self.room.bytes() == by_plain.room && guarded && read_only {
            return None;
        }
        let outcome = Outcome { returned, guarded, read_only, room: self.room.bytes().to_vec() };
        if !guarded {
            // Broken guards would be found again at every later case.
            *self = Caller::new();
        }
        Some(outcome)
    }

    fn are_guarded(&self, looks_far: bool) -> bool {
        let mut lent = self.read.iter().chain([&self.room]);
        if looks_far { lent.all(Lent::is_wholly_guarded) } else { lent.all(Lent::is_guarded) }
    }
}

/// Sends the library's calls to the bridge, in batches.
#[cfg(bridged)]
struct Caller {
    bridge: Bridge,
    waiting: Vec<Waiting>,
}

/// A case that waits for the library's outcome, and the plain one's.
#[cfg(bridged)]
struct Waiting {
    kept: Kept,
    returned: u64,
    room: Vec<u8>,
}

#[cfg(bridged)]
impl Caller {
    fn new() -> Caller {
        Caller { bridge: Bridge::start().expect("the bridge starts"), waiting: Vec::new() }
    }

    fn push(&mut self, case: &Case, places: Places, by_plain: &ByPlain) {
        self.bridge.push(case, places);
        let &ByPlain { returned, room } = by_plain;
        self.waiting.push(Waiting { kept: Kept::new(case), returned, room: room.to_vec() });
    }
}

struct Comparison {
    random: Random,
    limit: u64,
    trace: bool,
    cases: u64,
    tallies: [Tally; Kind::ALL.len()],
    met: Met,
    editions: Editions,
    library: Caller,
    /// What the plain implementation's last call left in its room.
    plain: Vec<u8>,
    /// Bytes to fill rooms with.
    noise: Vec<u8>,
}

/// Counts a difference and prints it if it is among the first of its kind.
#[cold]
fn difference(tallies: &mut [Tally], case: &Case, by_plain: &ByPlain, library: &Outcome) {
    let tally = &mut tallies[case.kind as usize];
    tally.differences += 1;
    if tally.differences > SHOWN {
        return;
    }
    println!("{case}\n  plain    {}", case.answer(by_plain.returned, by_plain.room));
    println!("  library  {}", case.answer(library.returned, &library.room));
    let bytes = library.room.iter().zip(by_plain.room).zip(case.room).enumerate();
    let mut other = bytes.filter(|(_, ((library, plain), _))| library != plain);
    if let Some((at, ((library, plain), before))) = other.next() {
        println!("  byte {at} of the room: {before} before, plain {plain}, library {library}");
    }
    if !library.guarded {
        println!("  guard bytes were changed");
    }
    if !library.read_only {
        println!("  bytes lent for reading were changed");
    }
}

impl Comparison {
    fn new(seed: u64, limit: u64, trace: bool) -> Comparison {
        let mut random = Random::new(seed);
        let mut noise = vec![0; LARGEST_ROOM + 4096];
        random.fill(&mut noise);
        Comparison {
            random,
            limit,
            trace,
            cases: 0,
            tallies: Default::default(),
            met: Met::default(),
            editions: Editions::default(),
            library: Caller::new(),
            plain: Vec::with_capacity(LARGEST_ROOM),
            noise,
        }
    }

    fn placed(&mut self) -> Placed {
        match self.random.below(8) {
            0..4 => Placed::AtEnd,
            4 | 5 => Placed::AtStart,
            _ => Placed::From(64 + self.random.index(180)),
        }
    }

    /// Runs one case through both. What the plain implementation returns is
    /// handed back; what it left in the room is in `plain`.
    fn check(&mut self, case: Case) -> u64 {
        self.plain.clear();
        self.plain.extend_from_slice(case.room);
        if self.cases >= self.limit {
            return 0;
        }
        if self.trace {
            println!("{case}");
        }
        let places = std::array::from_fn(|_| self.placed());
        let returned = case.call::<Plain>(case.read, &mut self.plain);
        self.cases += 1;
        self.tallies[case.kind as usize].count(case.kind, returned);
        self.met.count(&case, returned, &self.plain);
        self.editions.count(&case, returned);
        self.call_library(&case, places, returned);
        returned
    }

    #[cfg(linked)]
    fn call_library(&mut self, case: &Case, places: Places, returned: u64) {
        let looks_far = self.cases.is_multiple_of(65_536);
        let by_plain = ByPlain { returned, room: &self.plain };
        if let Some(outcome) = self.library.other_outcome(case, places, &by_plain, looks_far) {
            difference(&mut self.tallies, case, &by_plain, &outcome);
        }
    }

    #[cfg(linked)]
    fn finish(&mut self) {}

    #[cfg(bridged)]
    fn call_library(&mut self, case: &Case, places: Places, returned: u64) {
        self.library.push(case, places, &ByPlain { returned, room: &self.plain });
        if self.trace || self.library.bridge.is_full() {
            self.finish();
        }
    }

    /// Has the cases that wait for the library run, and judges them.
    #[cfg(bridged)]
    fn finish(&mut self) {
        let outcomes = match self.library.bridge.flush() {
            Ok(outcomes) => outcomes,
            Err(error) => {
                println!(
                    "the library's process has ended within a batch ({error}); --trace tells at which case"
                );
                std::process::exit(3);
            }
        };
        for (waiting, outcome) in self.library.waiting.drain(..).zip(&outcomes) {
            let by_plain = ByPlain { returned: waiting.returned, room: &waiting.room };
            let same = outcome.returned == by_plain.returned && outcome.room == by_plain.room;
            if !same || !outcome.guarded || !outcome.read_only {
                difference(&mut self.tallies, &waiting.kept.case(), &by_plain, outcome);
            }
        }
    }

    fn differences(&self) -> u64 {
        self.tallies.iter().map(|tally| tally.differences).sum()
    }

    fn report(&self, seconds: f64) {
        for &kind in Kind::ALL {
            let tally = &self.tallies[kind as usize];
            print!(
                "{:<9} {:>10} cases, {} differences; accepted {}{}",
                kind.shape().word,
                tally.cases,
                tally.differences,
                tally.refusals.times(0),
                tally.refusals
            );
            if kind == Kind::Run {
                print!("; stopped {}{}", tally.stops.all(), tally.stops);
            }
            println!();
        }
        println!("{}", self.met);
        let [by_events, by_runs] = [Kind::Event, Kind::Run].map(|kind| &self.tallies[kind as usize]);
        println!(
            "13 by the count alone: event {}, run {}",
            by_events.refusals.times_with(13, 0),
            by_runs.stops.times_with(13, 0)
        );
        println!("{}", self.editions);
        println!("{seconds:.1} s");
        println!("{} cases, {} differences", self.cases, self.differences());
    }

    /// A room of this length, with any bytes in it.
    fn room(&mut self, length: usize) -> Vec<u8> {
        let start = self.random.index(4096);
        self.noise[start..start + length].to_vec()
    }

    fn generated(&mut self) {
        self.sweeps();
        while self.cases < self.limit {
            match self.random.below(123) {
                0 => self.plan(),
                1..38 => self.situation(),
                38..44 => self.walk_by_events(),
                44..50 => self.damaged_questions(),
                50..75 => self.question(),
                75..100 => (0..6).for_each(|_| self.number()),
                100..108 => self.line_in_use(),
                108..114 => self.marked_line(),
                114..118 => self.stray_occupation(),
                _ => self.exclusions(),
            }
            if self.random.once_in(3_000) {
                self.damage_sweep();
            }
            if self.random.once_in(10_000) {
                self.large_question();
            }
        }
    }

    fn sweeps(&mut self) {
        for edition in Edition::ALL {
            self.sweeps_of(edition);
        }
        self.last_bytes();
    }

    /// Of an edition every plan, and one event with every plan; every two
    /// letters; on a situation without the mark and on one on which the count
    /// runs every event and every reading; every mark and count.
    fn sweeps_of(&mut self, edition: Edition) {
        let line = generate::line_of(&mut self.random, edition);
        let plan = line.to_record();
        let unmarked = generate::reached(&mut self.random, &line);
        let counting = generate::counting(&mut self.random, &line);
        let room = self.room(EVENT_ROOM);
        for first in 0..=255 {
            for second in 0..=255 {
                let any_plan = plan_record(Plan::new(edition, first, second));
                self.check(Case::plan(&any_plan));
                self.check(Case::event(&any_plan, &unmarked.to_record(), &[events::DAFBL, 0], &room));
                self.check(Case::plan(&with_letters(&plan, [first, second])));
            }
        }
        for situation in [unmarked, counting] {
            let situation = situation.to_record();
            for first in 0..=255 {
                for second in 0..=255 {
                    self.check(Case::event(&plan, &situation, &[first, second], &room));
                    self.check(Case::reading(&plan, &situation, &[first, second]));
                    self.check(Case::situation(&plan, &with_letters(&situation, [first, second])));
                }
            }
            self.lengths(&plan, &situation);
            self.event_rooms(&plan, &situation);
        }
        self.marks_and_counts(&plan, counting);
    }

    /// LC with every last byte, through all calls that take a plan; the same
    /// on a plan that is none.
    fn last_bytes(&mut self) {
        let question = generate::question_of_exclusions(&mut self.random, Search::Small);
        let situation = question.situation().to_record();
        let plan = question.line().under(Edition::Of2012).to_record();
        let room = self.room(EVENT_ROOM);
        for sections in [plan[2], 0] {
            for last in 0..=255 {
                let plan = [b'L', b'C', sections, plan[3], last];
                self.check(Case::plan(&plan));
                self.check(Case::situation(&plan, &situation));
                self.check(Case::event(&plan, &situation, &generate::SECOND.to_bytes(), &room));
                self.check(Case::aspects(&plan, &situation, &room));
                self.check(Case::reading(&plan, &situation, &[readings::LINE, 0]));
                let bytes = generate::with_plan(&question, &plan);
                self.check(Case::question(&bytes));
                self.check(Case::key(&bytes, &START, &room));
                self.check(Case::run(&bytes, &[0; SLOT]));
            }
        }
    }

    /// A second on every mark and count, with no section occupied, with one,
    /// and with an exit route.
    fn marks_and_counts(&mut self, plan: &[u8], counting: Situation) {
        let room = self.room(EVENT_ROOM);
        let occupied = Situation { occupied: 1, ..counting };
        let route = Situation { exit: [1, 0], ..Situation::FRESH };
        for situation in [counting, occupied, route] {
            for mark in 0..=255 {
                for count in 0..=255 {
                    let record = Situation { mark, count, ..situation }.to_long_record();
                    self.check(Case::event(plan, &record, &[events::SECOND, 0], &room));
                }
            }
        }
    }

    /// Plan, situation, event and reading, each cut at every length or with
    /// bytes left over, through all calls that take them.
    fn lengths(&mut self, plan: &[u8], situation: &[u8]) {
        let left_over = self.room(64);
        let room = self.room(128);
        let (event, reading) = ([events::DAFBL, 0], [5, 0]);
        for length in 0..64 {
            let other = |bytes: &[u8]| [bytes, &left_over].concat()[..length].to_vec();
            let (other_plan, other_situation) = (other(plan), other(situation));
            self.check(Case::plan(&other_plan));
            for (plan, situation) in [(&other_plan[..], situation), (plan, &other_situation[..])] {
                self.check(Case::situation(plan, situation));
                self.check(Case::event(plan, situation, &event, &room));
                self.check(Case::aspects(plan, situation, &room));
                self.check(Case::reading(plan, situation, &reading));
            }
            self.check(Case::event(plan, situation, &other(&event), &room));
            self.check(Case::reading(plan, situation, &other(&reading)));
        }
    }

    /// Every room of up to 128 bytes, for an event that is accepted, one that
    /// is refused, an unknown one, one with no such argument and one of three
    /// bytes.
    fn event_rooms(&mut self, plan: &[u8], situation: &[u8]) {
        for length in 0..=128 {
            let room = self.room(length);
            // One of the first two is refused by 5, the other not.
            let (on, off) = (events::REMINDER_ON, events::REMINDER_OFF);
            for event in [&[on, 0][..], &[off, 0], &[0, 0], &[on, 2], &[on, 0, 0]] {
                self.check(Case::event(plan, situation, event, &room));
            }
        }
    }

    fn plan(&mut self) {
        let (plan, _) = generate::lent_plan(&mut self.random);
        self.check(Case::plan(&plan));
    }

    /// A situation of any kind: is it sound, some events, its aspects, some
    /// readings.
    fn situation(&mut self) {
        let r = &mut self.random;
        let (plan, line) = generate::lent_plan(r);
        let situation = generate::lent_situation(r, &line);
        self.check(Case::situation(&plan, &situation));
        for _ in 0..4 {
            let r = &mut self.random;
            let event =
                if r.once_in(6) { generate::second_bytes(r) } else { generate::event_bytes(r, &line) };
            let event = generate::lent_pair(r, event);
            let length = self.event_room_length();
            let room = self.room(length);
            self.check(Case::event(&plan, &situation, &event, &room));
        }
        let length = self.aspects_room_length(&line);
        let room = self.room(length);
        self.check(Case::aspects(&plan, &situation, &room));
        for _ in 0..2 {
            let r = &mut self.random;
            let reading = generate::reading_bytes(r, &line);
            let reading = generate::lent_pair(r, reading);
            self.check(Case::reading(&plan, &situation, &reading));
        }
    }

    fn event_room_length(&mut self) -> usize {
        match self.random.below(12) {
            0 => self.random.index(129),
            1 => EVENT_ROOM - 1,
            2 => EVENT_ROOM + 1,
            3 => self.random.from(SI as u64 - 1, SJ as u64 + 1) as usize,
            _ => EVENT_ROOM,
        }
    }

    fn aspects_room_length(&mut self, line: &Line) -> usize {
        let needed = 2 * usize::from(line.sections());
        match self.random.below(4) {
            0 => self.random.index(65),
            1 => needed - self.random.index(3),
            _ => needed + self.random.index(3),
        }
    }

    /// A walk over events: the records that one call wrote are the next one's
    /// situation.
    fn walk_by_events(&mut self) {
        let r = &mut self.random;
        let line = generate::line(r);
        let plan = line.to_record();
        let from = match r.below(5) {
            0 | 1 => Situation::FRESH,
            2 => generate::sound(r, &line),
            3 => generate::marked(r, &line),
            _ => {
                let paired = generate::paired(r, &line);
                generate::unpaired(r, &line, paired)
            }
        };
        let mut situation = from.to_record().to_vec();
        let aspects_room = self.room(2 * usize::from(line.sections()));
        for _ in 0..12 {
            let r = &mut self.random;
            let event = match r.below(6) {
                0 => generate::SECOND,
                1 | 2 => generate::exclusive_event(r, &line),
                _ => generate::event(r, &line),
            };
            self.happen(&plan, &mut situation, event);
            self.check(Case::aspects(&plan, &situation, &aspects_room));
            self.check(Case::situation(&plan, &situation));
        }
    }

    /// An event on a walk: if it is accepted, the situation becomes what it
    /// wrote.
    fn happen(&mut self, plan: &[u8], situation: &mut Vec<u8>, event: Event) {
        let room = self.room(EVENT_ROOM);
        let told = self.check(Case::event(plan, situation, &event.to_bytes(), &room));
        let told = told::Event::from(told);
        if told.refusal == 0 && told.length != 0 {
            *situation = self.plain[..told.length].to_vec();
        }
    }

    /// A walk over a stray occupation and the seconds after it; on each
    /// situation the line is read, and an event tried that turns the
    /// orientation where it is free.
    fn stray_occupation(&mut self) {
        let r = &mut self.random;
        let line = generate::line(r);
        let plan = line.to_record();
        let mut situation = generate::empty_line(r, &line).to_record().to_vec();
        for event in generate::stray_events(r, &line) {
            self.happen(&plan, &mut situation, event);
            self.check(Case::reading(&plan, &situation, &[readings::LINE, 0]));
            let tried = generate::turning_event(&mut self.random, &line);
            let room = self.room(EVENT_ROOM);
            self.check(Case::event(&plan, &situation, &tried.to_bytes(), &room));
        }
    }

    /// A line with the mark, or on which it may come: a second, every section
    /// occupied and freed, exit routes by both stations, the line as it is
    /// read; parts of a key with seconds and slots that end in each of the
    /// events listed.
    fn marked_line(&mut self) {
        let question = generate::question_in_time(&mut self.random, Search::Small);
        let bytes = generate::question_bytes(&question);
        let (plan, situation) = (question.line().to_record(), question.situation().to_record());
        let room = self.room(EVENT_ROOM);
        self.check(Case::event(&plan, &situation, &generate::SECOND.to_bytes(), &room));
        for section in 1..=question.line().sections() {
            for code in [events::OCCUPIED, events::FREED] {
                self.check(Case::event(&plan, &situation, &[code, section], &room));
            }
        }
        for code in [events::EXIT_NORMAL, events::EXIT_SPECIAL] {
            for station in 0..2 {
                self.check(Case::event(&plan, &situation, &[code, station], &room));
            }
        }
        self.check(Case::reading(&plan, &situation, &[readings::LINE, 0]));
        for place in 1..=question.events().len() {
            let slot = generate::slot_to(&mut self.random, &question, place);
            self.check(Case::run(&bytes, &slot));
            let length = self.room_length();
            let room = self.room(length);
            self.check(Case::key(&bytes, &slot, &room));
        }
    }

    /// A line in use: each order that meets what is on it, by both stations,
    /// and slots that end in each of the events listed.
    fn line_in_use(&mut self) {
        let question = generate::question_in_use(&mut self.random);
        let bytes = generate::question_bytes(&question);
        let (plan, situation) = (question.line().to_record(), question.situation().to_record());
        let room = self.room(EVENT_ROOM);
        for code in generate::MET {
            for station in 0..2 {
                self.check(Case::event(&plan, &situation, &[code, station], &room));
            }
        }
        for place in 1..=question.events().len() {
            let slot = generate::slot_to(&mut self.random, &question, place);
            self.check(Case::run(&bytes, &slot));
        }
    }

    /// Orders that the 2012 rules exclude, by both editions: on a situation that
    /// may have a pair and on one that has none each of them by both stations
    /// and some signals held; of a question parts of its key and slots that end
    /// in each of the events listed.
    fn exclusions(&mut self) {
        let r = &mut self.random;
        let line = generate::line(r);
        let paired = generate::paired(r, &line);
        let unpaired = generate::unpaired(r, &line, paired);
        let signals = [0; 4].map(|_| generate::block_signal(r, &line));
        for edition in Edition::ALL {
            let plan = line.under(edition).to_record();
            for situation in [paired, unpaired] {
                self.exclusive_orders(&plan, &situation.to_record(), &signals);
            }
        }
        let question = generate::question_of_exclusions(&mut self.random, Search::Small);
        let by_both = Edition::ALL.map(|edition| generate::question_under(&question, edition));
        for place in 1..=question.events().len() {
            let slot = generate::slot_to(&mut self.random, &question, place);
            let length = self.room_length();
            let room = self.room(length);
            for bytes in &by_both {
                self.check(Case::run(bytes, &slot));
                self.check(Case::key(bytes, &slot, &room));
            }
        }
        let room = self.room(64 * SLOT);
        for bytes in &by_both {
            self.check(Case::question(bytes));
            self.check(Case::key(bytes, &START, &room));
        }
    }

    fn exclusive_orders(&mut self, plan: &[u8], situation: &[u8], signals: &[u8]) {
        self.check(Case::situation(plan, situation));
        let room = self.room(EVENT_ROOM);
        for code in generate::EXCLUSIVE {
            for station in 0..2 {
                self.check(Case::event(plan, situation, &[code, station], &room));
            }
        }
        for &signal in signals {
            self.check(Case::event(plan, situation, &[events::BSLB, signal], &room));
        }
        self.check(Case::aspects(plan, situation, &room));
        let reading = self.random.pick(&[[readings::ANNULMENT, 0], [readings::ANNULMENT, 1]]);
        self.check(Case::reading(plan, situation, &reading));
    }

    /// Floats of every exponent and sign, on many questions; then numbers as
    /// they come among other cases.
    fn numbers(&mut self) {
        for high in 0..512 {
            for low in [0, 1, 1 << 22, 0x7f_fffe, 0x7f_ffff] {
                for _ in 0..64 {
                    let [kind, amount, speed, tolerance, unit, _] = generate::typed(&mut self.random);
                    let room = self.room(13);
                    let pattern = high << 23 | low;
                    self.check(Case::mark(kind as u8, amount, speed, tolerance, unit as u8, pattern, &room));
                }
            }
        }
        while self.cases < self.limit {
            self.number();
        }
    }

    fn number(&mut self) {
        let [kind, amount, speed, tolerance, unit, pattern] = generate::typed(&mut self.random);
        let length = match self.random.below(6) {
            0 => self.random.index(65),
            1 => 12,
            2 => 14,
            _ => 13,
        };
        let room = self.room(length);
        self.check(Case::mark(kind as u8, amount, speed, tolerance, unit as u8, pattern, &room));
    }

    fn room_length(&mut self) -> usize {
        match self.random.below(8) {
            0 => self.random.index(6),
            1..4 => self.random.index(65),
            4 | 5 => SLOT * self.random.index(20),
            6 => self.random.index(1_000),
            _ => self.random.index(10_000),
        }
    }

    /// An accepted question, now and then with seconds or with orders that the
    /// 2012 rules exclude.
    fn any_question(&mut self, search: Search) -> Question {
        let r = &mut self.random;
        match r.below(8) {
            0 | 1 => generate::question_in_time(r, search),
            2 => generate::question_of_exclusions(r, search),
            _ => generate::question(r, search),
        }
    }

    /// An accepted question: itself, parts of its key, runs.
    fn question(&mut self) {
        let search = if self.random.once_in(400) { Search::Any } else { Search::Small };
        let question = self.any_question(search);
        let bytes = generate::question_bytes(&question);
        self.check(Case::question(&bytes));
        // The first answers, to go on after.
        let mut answers = vec![0; 64 * SLOT];
        let told = told::Key::from(self.check(Case::key(&bytes, &START, &answers)));
        answers.copy_from_slice(&self.plain);
        answers.truncate(told.count * SLOT);
        for _ in 0..3 {
            let after = generate::slot_bytes(&mut self.random, &question, &answers);
            let length = self.room_length();
            let room = self.room(length);
            self.check(Case::key(&bytes, &after, &room));
        }
        for _ in 0..4 {
            let slot = generate::slot_bytes(&mut self.random, &question, &answers);
            self.check(Case::run(&bytes, &slot));
        }
        if self.random.once_in(16) {
            self.walk_by_slots(&question, &bytes);
        }
    }

    /// The key in parts, each after the last slot of the part before.
    fn walk_by_slots(&mut self, question: &Question, bytes: &[u8]) {
        let slots = 1 + self.random.index(4);
        let mut after =
            if self.random.once_in(4) { generate::slot(&mut self.random, question, &[]) } else { START };
        for _ in 0..40 {
            let length = slots * SLOT + self.random.index(SLOT);
            let room = self.room(length);
            let told = told::Key::from(self.check(Case::key(bytes, &after, &room)));
            if told.refusal != 0 || told.more == 0 || !(1..=slots).contains(&told.count) {
                break;
            }
            after.copy_from_slice(&self.plain[(told.count - 1) * SLOT..told.count * SLOT]);
        }
    }

    /// A question of the largest kind, its whole key in one call and parts of
    /// it.
    fn large_question(&mut self) {
        let mut question = self.any_question(Search::Any);
        for _ in 0..50 {
            if question.length() >= 4 && question.events().len() >= 10 {
                break;
            }
            question = self.any_question(Search::Any);
        }
        let bytes = generate::question_bytes(&question);
        let room = self.room(LARGEST_ROOM);
        let told = told::Key::from(self.check(Case::key(&bytes, &START, &room)));
        let answers = self.plain[..told.count * SLOT].to_vec();
        for _ in 0..30 {
            let after = generate::slot_bytes(&mut self.random, &question, &answers);
            let length = self.room_length();
            let room = self.room(length);
            self.check(Case::key(&bytes, &after, &room));
            self.check(Case::run(&bytes, &after));
        }
    }

    /// Questions damaged in many ways, through all calls that take one.
    fn damaged_questions(&mut self) {
        let question = self.any_question(Search::Small);
        for _ in 0..6 {
            let r = &mut self.random;
            let bytes = match r.below(32) {
                0 => {
                    let length = r.index(130);
                    self.room(length)
                }
                1..8 => {
                    let situation = generate::lent_situation(r, question.line());
                    generate::with_situation(&question, &situation)
                }
                8 | 9 => generate::question_under(&question, question.line().edition().other()),
                10..13 => {
                    let (plan, _) = generate::lent_plan_of(r, *question.line());
                    generate::with_plan(&question, &plan)
                }
                _ => generate::damaged(r, &question),
            };
            self.check(Case::question(&bytes));
            let slot = generate::slot_bytes(&mut self.random, &question, &[]);
            // A damaged length or count must not make a search of its own.
            let is_small = Question::read(&bytes)
                .map_or(true, |read| read.events().len().pow(read.length() as u32) <= 20_000);
            if is_small {
                let length = self.room_length();
                let room = self.room(length);
                self.check(Case::key(&bytes, &slot, &room));
            }
            self.check(Case::run(&bytes, &slot));
        }
    }

    /// One question with each byte changed, cut at each length, lengthened.
    fn damage_sweep(&mut self) {
        let question = self.any_question(Search::Small);
        let bytes = generate::question_bytes(&question);
        let every_value = self.random.once_in(8);
        let mut changed = bytes.clone();
        for at in 0..bytes.len() {
            if every_value {
                for value in 0..=255 {
                    changed[at] = value;
                    self.check(Case::question(&changed));
                }
            } else {
                changed[at] = generate::changed_byte(&mut self.random, bytes[at]);
                self.check(Case::question(&changed));
                self.check(Case::run(&changed, &[0; SLOT]));
                self.check(Case::key(&changed, &START, &[7; 4]));
            }
            changed[at] = bytes[at];
        }
        for length in 0..bytes.len() {
            self.check(Case::question(&bytes[..length]));
            self.check(Case::run(&bytes[..length], &[0; SLOT]));
            self.check(Case::key(&bytes[..length], &START, &[9; 2 * SLOT]));
        }
        let mut longer = bytes.clone();
        for _ in 0..40 {
            longer.push(self.random.byte());
            self.check(Case::question(&longer));
        }
        let twice = [&bytes[..], &bytes[..]].concat();
        self.check(Case::question(&twice));
    }

    fn small_line(&mut self) {
        for edition in Edition::ALL {
            self.small_line_of(edition);
        }
    }

    /// Every situation in range of the plan 2, 1 of an edition, and with every
    /// mark and count where it is sound; on each sound one every event, all
    /// aspects and every reading.
    fn small_line_of(&mut self, edition: Edition) {
        let line = Line::new(Plan::new(edition, 2, 1)).expect("a plan");
        let plan = line.to_record();
        let asked = Asked::all(&line);
        // How many values each byte of a situation has.
        let values = [2u8, 3, 3, 3, 3, 3, 3, 2, 2, 3, 4, 4, 4, 4, 1, 2, 1, 2, 1];
        let mut body = [0u8; LENGTH];
        loop {
            // Bit 1 alone is a block signal towards B; towards A it is bit 0.
            let mut bytes = body;
            bytes[15] *= 2;
            let situation = Situation::from_bytes(&bytes);
            if self.ask_if_sound(&plan, &situation.to_record(), &asked) {
                self.with_marks(&plan, situation, &asked);
            }
            // The next combination.
            let Some(at) = (0..SHORT_LENGTH).find(|&at| body[at] + 1 < values[at]) else { break };
            body[..at].fill(0);
            body[at] += 1;
        }
    }

    /// Every mark and count in range on a situation that is sound without them.
    fn with_marks(&mut self, plan: &[u8], unmarked: Situation, asked: &Asked) {
        for mark in 0..=1 {
            for count in 0..=TEN_SECONDS {
                let situation = Situation { mark, count, ..unmarked };
                self.ask_if_sound(plan, &situation.to_long_record(), asked);
            }
        }
    }

    /// Everything that can be asked of a situation, if it is sound.
    fn ask_if_sound(&mut self, plan: &[u8], situation: &[u8], asked: &Asked) -> bool {
        let returned = self.check(Case::situation(plan, situation));
        match returned {
            0 => self.ask(plan, situation, asked),
            2 => {}
            20 if situation.starts_with(b"SJ") && situation.ends_with(&[0, 0]) => {}
            _ => println!("unexpected refusal {returned} of {}", hex(situation)),
        }
        returned == 0
    }

    fn ask(&mut self, plan: &[u8], situation: &[u8], asked: &Asked) {
        for event in &asked.events {
            self.check(Case::event(plan, situation, event, &[3; EVENT_ROOM]));
        }
        self.check(Case::aspects(plan, situation, &[3; 5]));
        for reading in &asked.readings {
            self.check(Case::reading(plan, situation, reading));
        }
    }
}

/// Every event and every reading of a line.
struct Asked {
    events: Vec<[u8; 2]>,
    readings: Vec<[u8; 2]>,
}

impl Asked {
    fn all(line: &Line) -> Asked {
        let pairs = || (0..=255).flat_map(|first| (0..=255).map(move |second| [first, second]));
        let is_event = |&[code, argument]: &[u8; 2]| Event { code, argument }.check(line).is_ok();
        let is_reading = |&[kind, argument]: &[u8; 2]| readings::greatest_value(line, kind, argument).is_ok();
        Asked { events: pairs().filter(is_event).collect(), readings: pairs().filter(is_reading).collect() }
    }
}

/// A record with other letters.
fn with_letters(record: &[u8], letters: [u8; 2]) -> Vec<u8> {
    [&letters[..], &record[2..]].concat()
}
