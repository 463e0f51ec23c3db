//! Measures the library against the plain implementation:
//!
//!     bench [--rounds R | --instructions FILE | --callgrind FILE]
//!
//! Both run in the same process on the same inputs, by turns; the best of R
//! rounds counts. A ratio is the library's time over the plain one's: below
//! 1.00 the library is faster. Every measured call reads its question or
//! situation from bytes and judges it, as a caller of the interface has it.
//! Rooms are filled with bytes once before the measurement and never cleared
//! in between. Both give the same answers, or the program stops.
//!
//! With `--instructions` executed instructions are counted instead, once: FILE
//! is where emulated/count.c keeps their count, under an emulator. With
//! `--callgrind` they are counted on an x86-64 machine by valgrind's callgrind,
//! whose output file FILE is; see tools/bench-counted.sh.
//!
//! Where the library is not linked (see build.rs) only the plain
//! implementation is measured: a time under an emulator says nothing.

use std::cell::Cell;
use std::fs::{File, read_to_string};
use std::hint::black_box;
use std::io::{Read, Seek, SeekFrom};
use std::process::ExitCode;
use std::time::Instant;

#[cfg(linked)]
use folvkin_compare::Library;
use folvkin_compare::cases::from_hex;
use folvkin_compare::generate::{self, Search};
use folvkin_compare::interface::{EVENT_ROOM, Interface, Plain};
use folvkin_compare::plain::key::{SLOT, START};
use folvkin_compare::plain::records::{LB, SI};
use folvkin_compare::plain::{Edition, Line, Parts, Plan, Question, Situation};
use folvkin_compare::random::Random;
use folvkin_compare::told;

/// Papers with large keys; see NOTES.md.
const LARGEST: &str = "4c42100f53490100000000000000000000000000000000000045560c1302130c0300130e1308010113071305130f1304130a13015244004c4e05";
const LARGEST_READ: &str = "4c42100f53490100000000000000000000000000000000000045560c1302130c0300130e1308010113071305130f1304130a13015244040500010401000301000110004c4e05";
const ANNULLED: &str = "4c42050353490001020000000000000000010008000000000045560c040005000f001301130213031404160009000a02030111005244020300020103014c4e05";
const SECONDS: &str = "4c420603534a01010200000000000000000000000000000000010245560c170013041404130614060e0110010e0010000101020011015244020500010401004c4e05";
const OF_2012: &str = "4c4308040153490100000000000000000000000000000000000045560c03000400050006000700080009000a030b0303010a8513065244020300000301004c4e05";

/// Something to measure, with either implementation.
trait Work {
    /// Does it all; what comes back depends on every answer.
    fn work<I: Interface>(&mut self) -> u64;
}

fn main() -> ExitCode {
    let words: Vec<String> = std::env::args().skip(1).collect();
    let words: Vec<&str> = words.iter().map(String::as_str).collect();
    let (rounds, meter) = match words[..] {
        [] => (15, Meter::Clock(Instant::now())),
        ["--rounds", number] => match number.parse() {
            Ok(rounds) if rounds > 0 => (rounds, Meter::Clock(Instant::now())),
            _ => return usage(),
        },
        ["--instructions", file] => match File::open(file) {
            Ok(file) => (1, Meter::Count(file)),
            Err(error) => {
                eprintln!("{file}: {error}");
                return ExitCode::FAILURE;
            }
        },
        ["--callgrind", file] => (1, Meter::Dumps(file.to_string(), Cell::new((0, 0)))),
        _ => return usage(),
    };
    let bench = Bench { rounds, meter };
    if !cfg!(linked) {
        println!(
            "The library is not linked, so that there are no ratios: only the plain implementation is measured."
        );
    }
    match bench.meter {
        Meter::Clock(_) => println!("Best of {rounds} rounds.\n"),
        Meter::Count(_) | Meter::Dumps(..) => println!("Executed instructions.\n"),
    }
    bench.keys();
    bench.calls();
    bench.growth();
    ExitCode::SUCCESS
}

fn usage() -> ExitCode {
    eprintln!("usage: bench [--rounds R | --instructions FILE | --callgrind FILE]");
    ExitCode::from(2)
}

/// What is read before and after a work.
enum Meter {
    /// Nanoseconds since then.
    Clock(Instant),
    /// Executed instructions, as the file has them.
    Count(File),
    /// Executed instructions, as callgrind dumps them into FILE.1, FILE.2 and
    /// so on; how many dumps there were, and their sum.
    Dumps(String, Cell<(u32, u64)>),
}

impl Meter {
    fn read(&self) -> f64 {
        match self {
            Meter::Clock(started) => started.elapsed().as_secs_f64() * 1e9,
            Meter::Count(file) => {
                let (mut file, mut bytes) = (file, [0; 8]);
                file.seek(SeekFrom::Start(0)).expect("the file of the count");
                file.read_exact(&mut bytes).expect("8 bytes of the count");
                u64::from_le_bytes(bytes) as f64
            }
            Meter::Dumps(file, so_far) => {
                ask_callgrind(DUMP);
                let (dumps, sum) = so_far.get();
                let text = read_to_string(format!("{file}.{}", dumps + 1)).expect("a dump of callgrind");
                let total = text.lines().find_map(|line| line.strip_prefix("totals: ")).expect("its total");
                let sum = sum + total.trim().parse::<u64>().expect("a number");
                so_far.set((dumps + 1, sum));
                ask_callgrind(ZERO);
                sum as f64
            }
        }
    }

    /// The least that a measurement is to take, so that the clock's steps and
    /// the reading of the count do not matter.
    fn least(&self) -> f64 {
        match self {
            Meter::Clock(_) => 2e6,
            Meter::Count(_) => 1e6,
            Meter::Dumps(..) => 1e7,
        }
    }

    fn unit(&self) -> &'static str {
        match self {
            Meter::Clock(_) => "ns",
            Meter::Count(_) | Meter::Dumps(..) => "instructions",
        }
    }
}

/// Requests to callgrind: write what was counted since the last time; begin to
/// count from zero.
const DUMP: u64 = 0x4354_0000;
const ZERO: u64 = 0x4354_0001;

/// Valgrind knows a request by instructions that do nothing.
#[cfg(target_arch = "x86_64")]
fn ask_callgrind(what: u64) {
    let request = [what, 0, 0, 0, 0, 0];
    // SAFETY: without valgrind the instructions change nothing (rdi comes
    // round to its value); with it the request is read and rdx written.
    unsafe {
        std::arch::asm!(
            "rol rdi, 3", "rol rdi, 13", "rol rdi, 61", "rol rdi, 51", "xchg rbx, rbx",
            in("rax") request.as_ptr(),
            inout("rdx") 0_u64 => _,
        );
    }
}

#[cfg(not(target_arch = "x86_64"))]
fn ask_callgrind(_: u64) {}

struct Bench {
    rounds: u32,
    meter: Meter,
}

impl Bench {
    fn head(&self, title: &str, of: &str) {
        let unit = self.meter.unit();
        println!("| {title} | {of} | plain, {unit} each | library, {unit} each | ratio |");
        println!("|---|---:|---:|---:|---:|");
    }

    /// What one time of the work takes, done so many times.
    fn measure<I: Interface>(&self, work: &mut impl Work, times: u32) -> (f64, u64) {
        let mut answer = 0;
        let before = self.meter.read();
        for _ in 0..times {
            answer = black_box(work.work::<I>());
        }
        ((self.meter.read() - before) / f64::from(times), answer)
    }

    /// How often a work is to be done for one measurement.
    fn times(&self, once: f64) -> u32 {
        (self.meter.least() / once).ceil().clamp(1.0, 1e6) as u32
    }

    /// Measures a work that does `count` things, and prints its line.
    #[cfg(linked)]
    fn line(&self, name: &str, count: usize, work: &mut impl Work) {
        let (once, answer) = self.measure::<Plain>(work, 1);
        let (_, other) = self.measure::<Library>(work, 1);
        assert_eq!(answer, other, "{name}: the answers differ");
        let times = self.times(once);
        let (mut plain, mut library) = (f64::INFINITY, f64::INFINITY);
        for round in 0..self.rounds {
            // By turns, and each the first of the two every second time.
            if round % 2 == 0 {
                plain = plain.min(self.measure::<Plain>(work, times).0);
                library = library.min(self.measure::<Library>(work, times).0);
            } else {
                library = library.min(self.measure::<Library>(work, times).0);
                plain = plain.min(self.measure::<Plain>(work, times).0);
            }
        }
        let each = count.max(1) as f64;
        println!(
            "| {name} | {count} | {:.2} | {:.2} | {:.2} |",
            plain / each,
            library / each,
            library / plain
        );
    }

    #[cfg(not(linked))]
    fn line(&self, name: &str, count: usize, work: &mut impl Work) {
        let (once, _) = self.measure::<Plain>(work, 1);
        let times = self.times(once);
        let plain =
            (0..self.rounds).map(|_| self.measure::<Plain>(work, times).0).fold(f64::INFINITY, f64::min);
        println!("| {name} | {count} | {:.2} | | |", plain / count.max(1) as f64);
    }

    fn keys(&self) {
        self.head("Keys", "sequences");
        for (name, text) in [
            ("largest, no readings", LARGEST),
            ("largest, four readings", LARGEST_READ),
            ("annulled, two readings", ANNULLED),
            ("with seconds, two readings", SECONDS),
            ("of 2012, two readings", OF_2012),
        ] {
            let bytes = from_hex(text).expect("hex");
            let mut whole = WholeKey::new(bytes.clone());
            let count = whole.count();
            self.line(&format!("{name}: whole key in one call"), count, &mut whole);
            for slots in [64, 1] {
                let mut parts = KeyInParts { bytes: bytes.clone(), room: vec![1; slots * SLOT] };
                self.line(&format!("{name}: {slots} a call"), count, &mut parts);
            }
        }
        println!();
    }

    fn calls(&self) {
        self.head("Calls", "calls");
        let mut r = Random::new(1);
        self.line("plan", 65_536, &mut Plans);
        let situations: Vec<_> = (0..4096)
            .map(|_| {
                let line = generate::line_of(&mut r, Edition::Of2024);
                Given::new(&mut r, &line)
            })
            .collect();
        let count = situations.len() * Given::TIMES;
        self.line("situation judged", count, &mut Situations(&situations));
        self.line("event, accepted or refused", count, &mut Events(&situations));
        let mut walk = Walk::new(&mut r);
        self.line("event, on a walk", walk.events.len(), &mut walk);
        self.line("aspects of all signals", count, &mut AllAspects(&situations));
        self.line("reading", count, &mut Readings(&situations));
        let questions: Vec<_> = (0..512)
            .map(|_| {
                let question = question_of_2024(&mut r);
                (generate::question_bytes(&question), generate::slot(&mut r, &question, &[]))
            })
            .collect();
        self.line("question read", questions.len() * 16, &mut Questions(&questions));
        let damaged: Vec<_> = (0..512)
            .map(|_| {
                let question = question_of_2024(&mut r);
                (generate::damaged(&mut r, &question), [0; SLOT])
            })
            .collect();
        self.line("question read, damaged", damaged.len() * 16, &mut Questions(&damaged));
        self.line("candidate's slot run", questions.len() * 16, &mut Runs(&questions));
        let mut marks: Vec<_> =
            std::iter::repeat_with(|| generate::typed(&mut r)).filter(is_marked).take(4096).collect();
        self.line("number marked, all kinds of floats", marks.len() * 4, &mut Marks(&marks));
        marks.iter_mut().for_each(type_near_the_answer);
        self.line("number marked, near the answer", marks.len() * 4, &mut Marks(&marks));
        println!();
    }

    /// How the cost of a whole key grows with events, length and sections, and
    /// that of aspects with sections.
    fn growth(&self) {
        let largest = from_hex(LARGEST_READ).expect("hex");
        let parts = Parts::split(&largest).expect("a question");
        self.head("Whole key by events (length 5)", "sequences");
        for count in [1, 2, 4, 6, 8, 10, 12] {
            let mut whole = WholeKey::of(Parts { events: &parts.events[..count], ..parts });
            let sequences = whole.count();
            self.line(&format!("{count} events"), sequences, &mut whole);
        }
        println!();
        self.head("Whole key by length (12 events)", "sequences");
        for length in 0..=5 {
            let mut whole = WholeKey::of(Parts { length, ..parts });
            let sequences = whole.count();
            self.line(&format!("length {length}"), sequences, &mut whole);
        }
        println!();
        self.head("Whole key by sections (12 events, length 4)", "sequences");
        // Events and readings that every line has.
        let events = [
            [1, 0],
            [1, 1],
            [2, 1],
            [3, 0],
            [6, 0],
            [6, 1],
            [8, 1],
            [17, 0],
            [17, 1],
            [19, 1],
            [19, 2],
            [12, 0],
        ];
        for sections in [2, 4, 8, 12, 16] {
            let mut whole = WholeKey::of(Parts {
                plan: Plan::new(Edition::Of2024, sections, sections / 2),
                situation: Situation::FRESH.to_bytes(),
                events: &events,
                readings: &[[1, 1, 0], [1, 129, 0], [4, 0, 0]],
                length: 4,
            });
            let sequences = whole.count();
            self.line(&format!("{sections} sections"), sequences, &mut whole);
        }
        println!();
        self.head("Aspects by sections", "calls");
        let mut r = Random::new(2);
        for n in [2, 4, 8, 12, 16] {
            let line = Line::new(Plan::new(Edition::Of2024, n, n / 2)).expect("a plan");
            let situations: Vec<_> = (0..2048).map(|_| Given::new(&mut r, &line)).collect();
            let count = situations.len() * Given::TIMES;
            self.line(&format!("{n} sections"), count, &mut AllAspects(&situations));
        }
        println!();
        self.head("Number marked by its size", "calls");
        let usual = -2..24;
        for power in [-127, -60, -30, -20, -15, -10, -6, -4].into_iter().chain(usual).chain([30, 60, 127]) {
            let marks: Vec<_> =
                std::iter::repeat_with(|| of_size(&mut r, power)).filter(is_marked).take(1024).collect();
            self.line(&format!("from 2^{power}"), marks.len() * 4, &mut Marks(&marks));
        }
    }
}

fn question_of_2024(r: &mut Random) -> Question {
    let line = generate::line_of(r, Edition::Of2024);
    generate::question_on(r, Search::Any, line)
}

/// A number typed in the unit asked, at least 2^power and less than twice
/// that; of the least power, below 2^-126.
fn of_size(r: &mut Random, power: i32) -> [u32; 6] {
    let [kind, amount, speed, tolerance, ..] = generate::typed(r);
    let pattern = ((power + 127) as u32) << 23 | r.word() as u32 & 0x7f_ffff;
    [kind, amount, speed, tolerance, kind, pattern]
}

/// Whether a typed number is marked, not refused.
fn is_marked(&[kind, amount, speed, tolerance, unit, pattern]: &[u32; 6]) -> bool {
    Plain::mark(kind as u8, amount, speed, tolerance, unit as u8, pattern, &mut [0; 13]) == 0
}

/// As candidates type: near the answer, in tenths.
fn type_near_the_answer([kind, amount, speed, _, unit, pattern]: &mut [u32; 6]) {
    let (amount, speed) = (f64::from(*amount), f64::from(*speed));
    let exact = if *kind == 1 { 3.6 * amount / speed } else { speed * amount / 3.6 };
    *unit = *kind;
    *pattern = ((exact * 10.0).round() as f32 / 10.0).to_bits();
}

struct WholeKey {
    bytes: Vec<u8>,
    room: Vec<u8>,
}

impl WholeKey {
    fn new(bytes: Vec<u8>) -> WholeKey {
        WholeKey { bytes, room: vec![1; 272_000 * SLOT] }
    }

    fn of(parts: Parts) -> WholeKey {
        let mut bytes = vec![0; parts.byte_length()];
        parts.write(&mut bytes).expect("a question");
        WholeKey::new(bytes)
    }

    fn count(&mut self) -> usize {
        told::Key::from(self.work::<Plain>()).count
    }
}

impl Work for WholeKey {
    fn work<I: Interface>(&mut self) -> u64 {
        I::key(&self.bytes, &START, &mut self.room)
    }
}

struct KeyInParts {
    bytes: Vec<u8>,
    room: Vec<u8>,
}

impl Work for KeyInParts {
    fn work<I: Interface>(&mut self) -> u64 {
        let mut after = START;
        let mut count = 0;
        loop {
            let told = told::Key::from(I::key(&self.bytes, &after, &mut self.room));
            count += told.count as u64;
            if told.refusal != 0 || told.more != 1 {
                return count;
            }
            after.copy_from_slice(&self.room[(told.count - 1) * SLOT..told.count * SLOT]);
        }
    }
}

struct Plans;

impl Work for Plans {
    fn work<I: Interface>(&mut self) -> u64 {
        let mut sum = 0;
        for n in 0..=255 {
            for b in 0..=255 {
                sum += u64::from(I::plan(black_box(&[b'L', b'B', n, b])));
            }
        }
        sum
    }
}

fn plan_of_2024(line: &Line) -> [u8; LB] {
    *line.to_record().as_array().expect("LB")
}

/// A situation and what is asked of it.
struct Given {
    plan: [u8; LB],
    situation: [u8; SI],
    event: [u8; 2],
    reading: [u8; 2],
}

impl Given {
    /// How often all situations are gone through in one round.
    const TIMES: usize = 4;

    fn new(r: &mut Random, line: &Line) -> Given {
        let plan = plan_of_2024(line);
        let situation = *generate::sound_or_reached(r, line).to_record().as_array().expect("no mark");
        let event = generate::event(r, line).to_bytes();
        let reading = generate::reading(r, line);
        Given { plan, situation, event, reading }
    }
}

struct Situations<'a>(&'a [Given]);

impl Work for Situations<'_> {
    fn work<I: Interface>(&mut self) -> u64 {
        let mut sum = 0;
        for _ in 0..Given::TIMES {
            for given in self.0 {
                sum += u64::from(I::situation(&given.plan, &given.situation));
            }
        }
        sum
    }
}

struct Events<'a>(&'a [Given]);

impl Work for Events<'_> {
    fn work<I: Interface>(&mut self) -> u64 {
        let mut room = [0; EVENT_ROOM];
        let mut sum = 0;
        for _ in 0..Given::TIMES {
            for given in self.0 {
                sum += I::event(&given.plan, &given.situation, &given.event, &mut room);
                sum += u64::from(room[3]) + u64::from(room[15]);
            }
        }
        sum
    }
}

/// Events that each go on from the records that the one before wrote.
struct Walk {
    plan: [u8; LB],
    events: Vec<[u8; 2]>,
}

impl Walk {
    fn new(r: &mut Random) -> Walk {
        let line = Line::new(Plan::new(Edition::Of2024, 9, 4)).expect("a plan");
        let events = (0..16_384).map(|_| generate::event(r, &line).to_bytes()).collect();
        Walk { plan: plan_of_2024(&line), events }
    }
}

impl Work for Walk {
    fn work<I: Interface>(&mut self) -> u64 {
        let (mut before, mut after) = (&mut [0; EVENT_ROOM], &mut [0; EVENT_ROOM]);
        let fresh = Situation::FRESH.to_record();
        let mut length = fresh.len();
        before[..length].copy_from_slice(&fresh);
        let mut sum = 0;
        for event in &self.events {
            let returned = I::event(&self.plan, &before[..length], event, after);
            sum += returned;
            let told = told::Event::from(returned);
            if told.refusal == 0 {
                length = told.length;
                std::mem::swap(&mut before, &mut after);
            }
        }
        sum + before[..length].iter().map(|&byte| u64::from(byte)).sum::<u64>()
    }
}

struct AllAspects<'a>(&'a [Given]);

impl Work for AllAspects<'_> {
    fn work<I: Interface>(&mut self) -> u64 {
        let mut room = [0; 32];
        let mut sum = 0;
        for _ in 0..Given::TIMES {
            for given in self.0 {
                sum += u64::from(I::aspects(&given.plan, &given.situation, &mut room));
                sum += u64::from(room[1]) + u64::from(room[2 * usize::from(given.plan[2]) - 2]);
            }
        }
        sum
    }
}

struct Readings<'a>(&'a [Given]);

impl Work for Readings<'_> {
    fn work<I: Interface>(&mut self) -> u64 {
        let mut sum = 0;
        for _ in 0..Given::TIMES {
            for given in self.0 {
                sum += u64::from(I::reading(&given.plan, &given.situation, &given.reading));
            }
        }
        sum
    }
}

struct Questions<'a>(&'a [(Vec<u8>, [u8; SLOT])]);

impl Work for Questions<'_> {
    fn work<I: Interface>(&mut self) -> u64 {
        let mut sum = 0;
        for _ in 0..16 {
            for (bytes, _) in self.0 {
                sum += u64::from(I::question(bytes));
            }
        }
        sum
    }
}

struct Runs<'a>(&'a [(Vec<u8>, [u8; SLOT])]);

impl Work for Runs<'_> {
    fn work<I: Interface>(&mut self) -> u64 {
        let mut sum = 0;
        for _ in 0..16 {
            for (bytes, slot) in self.0 {
                sum += I::run(bytes, slot);
            }
        }
        sum
    }
}

struct Marks<'a>(&'a [[u32; 6]]);

impl Work for Marks<'_> {
    fn work<I: Interface>(&mut self) -> u64 {
        let mut room = [0; 13];
        let mut sum = 0;
        for _ in 0..4 {
            for &[kind, amount, speed, tolerance, unit, pattern] in self.0 {
                sum +=
                    u64::from(I::mark(kind as u8, amount, speed, tolerance, unit as u8, pattern, &mut room));
                sum += u64::from(room[8]) + u64::from(room[9]);
            }
        }
        sum
    }
}
