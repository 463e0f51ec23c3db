//! Papers and their keys, by the plain implementation alone:
//!
//!     papers key FILE           prints what the key program prints
//!     papers show FILE          prints the question as a description
//!     papers write DESCRIPTION  writes the question's bytes to standard output
//!     papers search SEED TRIES  looks for papers with large keys
//!
//! A FILE has the bytes of a question. With `--hex` they are given in hex:
//!
//!     papers key --hex HEX
//!     papers show --hex HEX
//!     papers write --hex DESCRIPTION
//!
//! A description is made of parts with `;` between them (all but `plan` and
//! `events` may be left out):
//!
//!     plan 4 2 2012
//!     situation link=1 orientation=1,2 annulment=0,0 exit=0,0 entry=0,0
//!         pending=0 bilc=0 bslg=0 reminder=0 occupied=1+3 held=2+131
//!         mark=1 count=0
//!     events sobb A, cobb B, exit A, special B, occupied 3, hold 131, lost,
//!         second, ..
//!     readings signal 1 = 2, orientation A = 1, annulment B = 0, exit A = 1,
//!         line = 0
//!     length 4
//!
//! The edition of the plan is 2012 or 2024, and 2024 where nothing is said.
//! `situation` starts from the fresh one. A question that is not accepted is
//! written too; its refusal goes to standard error.

use std::fmt::Write as _;
use std::io::Write as _;
use std::process::ExitCode;

use folvkin_compare::cases::{from_hex, hex};
use folvkin_compare::generate;
use folvkin_compare::plain::keytext::{key_text, whole_key};
use folvkin_compare::plain::refusal::number;
use folvkin_compare::plain::{Edition, Parts, Plan, Question, Situation};
use folvkin_compare::random::Random;

/// The names of the events, in the order of their codes from 1.
const EVENTS: [&str; 23] = [
    "sobb", "cobb", "afbli", "afble", "dafbl", "bilc", "dilc", "bslg", "unbslg", "hold", "unhold", "remind",
    "unremind", "exit", "special", "unexit", "entry", "unentry", "occupied", "freed", "lost", "restored",
    "second",
];

/// The names of the readings, in the order of their kinds from 1.
const READINGS: [&str; 5] = ["signal", "orientation", "annulment", "exit", "line"];

fn main() -> ExitCode {
    let words: Vec<String> = std::env::args().skip(1).collect();
    let words: Vec<&str> = words.iter().map(String::as_str).collect();
    match command(&words) {
        Ok(()) => ExitCode::SUCCESS,
        Err(sentence) => {
            eprintln!("{sentence}");
            ExitCode::from(2)
        }
    }
}

fn command(words: &[&str]) -> Result<(), String> {
    match *words {
        ["key", ref paper @ ..] => say(key_text(&paper_given(paper)?).as_bytes()),
        ["show", ref paper @ ..] => show(&paper_given(paper)?)?,
        ["write", "--hex", ref parts @ ..] => say(format!("{}\n", hex(&written(parts)?)).as_bytes()),
        ["write", ref parts @ ..] => say(&written(parts)?),
        ["search", seed, tries] => match (seed.parse(), tries.parse()) {
            (Ok(seed), Ok(tries)) => search(seed, tries),
            _ => return Err("seed and tries are numbers".into()),
        },
        _ => return Err(USAGE.into()),
    }
    Ok(())
}

const USAGE: &str = "usage: papers key PAPER | show PAPER | write [--hex] DESCRIPTION | search SEED TRIES
       PAPER is a file, or --hex and its bytes in hex";

/// The bytes of the paper that the words name.
fn paper_given(words: &[&str]) -> Result<Vec<u8>, String> {
    match *words {
        ["--hex", text] => from_hex(text).ok_or(format!("{text} is no hex")),
        [file] => std::fs::read(file).map_err(|error| format!("{file}: {error}")),
        _ => Err(USAGE.into()),
    }
}

/// Writes to standard output; a reader that has closed its end is no error.
fn say(bytes: &[u8]) {
    let _ = std::io::stdout().write_all(bytes);
}

fn number_of(text: &str) -> Result<u8, String> {
    match text {
        "A" => Ok(0),
        "B" => Ok(1),
        _ => text.parse().map_err(|_| format!("{text} is no number up to 255")),
    }
}

/// The bytes of the question that is described. Its refusal goes to standard
/// error.
fn written(words: &[&str]) -> Result<Vec<u8>, String> {
    let bytes = Description::read(&words.join(" "))?.to_bytes()?;
    let refusal = number(Question::read(&bytes));
    if refusal != 0 {
        eprintln!("refused {refusal}");
    }
    Ok(bytes)
}

struct Description {
    plan: Option<Plan>,
    situation: Situation,
    events: Vec<[u8; 2]>,
    readings: Vec<[u8; 3]>,
    length: u8,
}

impl Description {
    fn read(text: &str) -> Result<Description, String> {
        let mut description = Description {
            plan: None,
            situation: Situation::FRESH,
            events: Vec::new(),
            readings: Vec::new(),
            length: 0,
        };
        for part in text.split(';').map(str::trim).filter(|part| !part.is_empty()) {
            let (name, rest) = part.split_once(' ').unwrap_or((part, ""));
            description.read_part(name, rest)?;
        }
        Ok(description)
    }

    fn read_part(&mut self, name: &str, rest: &str) -> Result<(), String> {
        match name {
            "plan" => self.plan = Some(plan_of(rest)?),
            "situation" => {
                rest.split_whitespace().try_for_each(|field| set_field(&mut self.situation, field))?;
            }
            "events" => {
                for event in rest.split(',') {
                    self.events.push(coded(event, &EVENTS)?);
                }
            }
            "readings" => {
                for reading in rest.split(',') {
                    let (asked, value) = reading.split_once('=').ok_or("a reading has a value after =")?;
                    let [kind, argument] = coded(asked, &READINGS)?;
                    self.readings.push([kind, argument, number_of(value.trim())?]);
                }
            }
            "length" => self.length = number_of(rest.trim())?,
            _ => return Err(format!("{name} is no part of a description")),
        }
        Ok(())
    }

    fn to_bytes(&self) -> Result<Vec<u8>, String> {
        let parts = Parts {
            plan: self.plan.ok_or("a description has a plan")?,
            situation: self.situation.to_bytes(),
            events: &self.events,
            readings: &self.readings,
            length: self.length,
        };
        let mut bytes = vec![0; parts.byte_length()];
        parts.write_unchecked(&mut bytes);
        Ok(bytes)
    }
}

/// Two numbers and the edition, 2024 if nothing is said.
fn plan_of(text: &str) -> Result<Plan, String> {
    let words: Vec<&str> = text.split_whitespace().collect();
    let (edition, n, b) = match words[..] {
        [n, b] | [n, b, "2024"] => (Edition::Of2024, n, b),
        [n, b, "2012"] => (Edition::Of2012, n, b),
        _ => return Err("a plan has two numbers, and 2012 or 2024 after them".into()),
    };
    Ok(Plan::new(edition, number_of(n)?, number_of(b)?))
}

/// A name of the list, or its number from 1, and an argument, 0 if there is
/// none.
fn coded(text: &str, names: &[&str]) -> Result<[u8; 2], String> {
    let mut words = text.split_whitespace();
    let name = words.next().unwrap_or("");
    let code = match names.iter().position(|&known| known == name) {
        Some(index) => index as u8 + 1,
        None => number_of(name)?,
    };
    Ok([code, words.next().map_or(Ok(0), number_of)?])
}

fn set_field(situation: &mut Situation, field: &str) -> Result<(), String> {
    let (name, text) = field.split_once('=').ok_or(format!("{field} has no ="))?;
    let one = || number_of(text);
    let pair = || -> Result<[u8; 2], String> {
        let (a, b) = text.split_once(',').ok_or(format!("{field} needs a value for A and one for B"))?;
        Ok([number_of(a)?, number_of(b)?])
    };
    let bit = |section: u8| {
        if (1..=16).contains(&section) {
            Ok(1 << (section - 1))
        } else {
            Err(format!("{section} is no section"))
        }
    };
    match name {
        "link" => situation.link = one()?,
        "orientation" => situation.orientation = pair()?,
        "annulment" => situation.annulment = pair()?,
        "exit" => situation.exit = pair()?,
        "entry" => situation.entry = pair()?,
        "pending" => situation.pending = one()?,
        "bilc" => situation.bilc = one()?,
        "bslg" => situation.bslg = one()?,
        "reminder" => situation.reminder = one()?,
        "mark" => situation.mark = one()?,
        "count" => situation.count = one()?,
        "occupied" => {
            for section in text.split('+') {
                situation.occupied |= bit(number_of(section)?)?;
            }
        }
        "held" => {
            for signal in text.split('+') {
                let signal = number_of(signal)?;
                if signal < 128 {
                    situation.held_towards_b |= bit(signal)?;
                } else {
                    situation.held_towards_a |= bit(signal - 128)?;
                }
            }
        }
        _ => return Err(format!("{name} is no field of a situation")),
    }
    Ok(())
}

fn show(bytes: &[u8]) -> Result<(), String> {
    let parts = Parts::split(bytes).map_err(|refusal| format!("refused {}", refusal as u8))?;
    println!("{}", description(&parts));
    let refusal = number(parts.accept());
    if refusal != 0 {
        println!("refused {refusal}");
    }
    Ok(())
}

fn description(parts: &Parts) -> String {
    let station = |argument: u8| match argument {
        0 => "A".to_string(),
        1 => "B".to_string(),
        other => other.to_string(),
    };
    let members =
        |set: u16, added: u8| (1..=16).filter(move |k| set >> (k - 1) & 1 == 1).map(move |k| k + added);
    let sum = |members: Vec<u8>| members.iter().map(u8::to_string).collect::<Vec<_>>().join("+");
    let Plan { edition, sections, frontier } = parts.plan;
    let edition = match edition {
        Edition::Of2024 => "",
        Edition::Of2012 => " 2012",
    };
    let mut text = format!("plan {sections} {frontier}{edition}; situation link={}", parts.situation[0]);
    let s = Situation::from_bytes(&parts.situation);
    for (name, [a, b]) in
        [("orientation", s.orientation), ("annulment", s.annulment), ("exit", s.exit), ("entry", s.entry)]
    {
        if [a, b] != [0, 0] {
            let _ = write!(text, " {name}={a},{b}");
        }
    }
    for (name, value) in
        [("pending", s.pending), ("bilc", s.bilc), ("bslg", s.bslg), ("reminder", s.reminder)]
    {
        if value != 0 {
            let _ = write!(text, " {name}={value}");
        }
    }
    if s.occupied != 0 {
        let _ = write!(text, " occupied={}", sum(members(s.occupied, 0).collect()));
    }
    if s.held_towards_b | s.held_towards_a != 0 {
        let held = members(s.held_towards_b, 0).chain(members(s.held_towards_a, 128)).collect();
        let _ = write!(text, " held={}", sum(held));
    }
    for (name, value) in [("mark", s.mark), ("count", s.count)] {
        if value != 0 {
            let _ = write!(text, " {name}={value}");
        }
    }
    for (index, &[code, argument]) in parts.events.iter().enumerate() {
        let name =
            EVENTS.get(usize::from(code).wrapping_sub(1)).map_or(code.to_string(), |name| name.to_string());
        let argument = match code {
            10 | 11 | 19 | 20 => argument.to_string(),
            21..=23 if argument == 0 => String::new(),
            _ => station(argument),
        };
        let before = if index == 0 { "; events " } else { ", " };
        let _ = write!(text, "{before}{}", format!("{name} {argument}").trim_end());
    }
    for (index, &[kind, argument, value]) in parts.readings.iter().enumerate() {
        let name =
            READINGS.get(usize::from(kind).wrapping_sub(1)).map_or(kind.to_string(), |name| name.to_string());
        let argument = match kind {
            2..=4 => station(argument),
            5 if argument == 0 => String::new(),
            _ => argument.to_string(),
        };
        let before = if index == 0 { "; readings " } else { ", " };
        let _ = write!(text, "{before}{} = {value}", format!("{name} {argument}").trim_end());
    }
    let _ = write!(text, "; length {}", parts.length);
    text
}

/// Climbs to papers with large keys: changes one event or the situation at a
/// time and keeps what gives more answers. Then asks readings of the best one,
/// to find smaller keys of it.
fn search(seed: u64, tries: u64) {
    let mut r = Random::new(seed);
    let line = generate::line(&mut r);
    let mut start = generate::sound_or_reached(&mut r, &line);
    let mut events: Vec<[u8; 2]> = Vec::new();
    let other_event = |r: &mut Random, events: &[[u8; 2]]| loop {
        let event = generate::event(r, &line).to_bytes();
        if !events.contains(&event) {
            break event;
        }
    };
    while events.len() < 12 {
        events.push(other_event(&mut r, &events));
    }
    let paper = |start: &Situation, events: &[[u8; 2]], readings: &[[u8; 3]], length: u8| {
        Parts { plan: line.plan(), situation: start.to_bytes(), events, readings, length }
            .accept()
            .expect("a paper in range")
    };
    let size = |question: &Question| whole_key(question).len() / 6;
    let mut best = size(&paper(&start, &events, &[], 4));
    for _ in 0..tries {
        let (before, before_start) = (events.clone(), start);
        if r.once_in(4) {
            start = generate::sound_or_reached(&mut r, &line);
        }
        for _ in 0..r.from(1, 2) {
            let place = r.index(12);
            events[place] = other_event(&mut r, &events);
        }
        let found = size(&paper(&start, &events, &[], 4));
        if found >= best {
            best = found;
        } else {
            (events, start) = (before, before_start);
        }
    }
    let print = |question: &Question| {
        let bytes = generate::question_bytes(question);
        let parts = Parts::split(&bytes).expect("a question");
        let text = format!("{} sequences: {}\n{}\n", size(question), description(&parts), hex(&bytes));
        say(text.as_bytes());
    };
    print(&paper(&start, &events, &[], 5));
    let mut readings = Vec::new();
    let mut there = start;
    for _ in 0..40 {
        let [code, argument] = r.pick(&events);
        let _ = there.apply(&line, folvkin_compare::plain::Event { code, argument });
    }
    for _ in 0..4 {
        let shown = generate::shown(&mut r, &line, &there);
        readings.push([shown.kind, shown.argument, shown.value]);
        print(&paper(&start, &events, &readings, 5));
    }
}
