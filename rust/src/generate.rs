//! Generated inputs: plans, situations, events, questions, slots and typed
//! numbers, right ones and damaged ones.

use crate::plain::key::{SLOT, START};
use crate::plain::situation::{AFBLE, AFBLI, IN, LENGTH, NONE, OUT, SHORT_LENGTH, TEN_SECONDS};
use crate::plain::{
    Edition, Event, Line, Parts, Plan, Question, Reading, Situation, events, readings, records,
};
use crate::random::Random;

/// A plan of either edition.
pub fn line(r: &mut Random) -> Line {
    let edition = r.pick(&Edition::ALL);
    line_of(r, edition)
}

/// A plan of an edition, with the least and greatest ones more often.
pub fn line_of(r: &mut Random, edition: Edition) -> Line {
    let n = match r.below(4) {
        0 => r.pick(&[2, 3, 16]),
        1 => r.from(2, 6),
        _ => r.from(2, 16),
    };
    let b = match r.below(4) {
        0 => r.pick(&[1, n - 1]),
        _ => r.from(1, n - 1),
    };
    Line::new(Plan::new(edition, n as u8, b as u8)).expect("a plan")
}

/// A set with few, some or many members.
fn set(r: &mut Random, within: u16) -> u16 {
    let bits = r.word();
    let (first, second, third) = (bits as u16, (bits >> 16) as u16, (bits >> 32) as u16);
    within
        & match r.below(4) {
            0 => 0,
            1 => first & second & third,
            2 => first & second,
            _ => first | second,
        }
}

fn stations(r: &mut Random) -> u8 {
    if r.once_in(2) { 0 } else { r.below(4) as u8 }
}

/// Fields in range, most of them as soundness has them; no mark.
fn in_range(r: &mut Random, line: &Line) -> Situation {
    let link = u8::from(!r.once_in(4));
    let orientation = match r.below(8) {
        0..3 => [NONE, NONE],
        3 | 4 => [OUT, IN],
        5 | 6 => [IN, OUT],
        _ => [r.below(3) as u8, r.below(3) as u8],
    };
    let mut annulment = [0; 2];
    let mut exit = [0; 2];
    for station in 0..2 {
        if orientation[station] == NONE && r.once_in(2) || r.once_in(16) {
            annulment[station] = r.below(3) as u8;
        }
        if orientation[station] != IN && r.once_in(3) || r.once_in(16) {
            exit[station] = r.below(3) as u8;
        }
    }
    let all = line.all();
    Situation {
        link,
        orientation,
        annulment,
        exit,
        entry: [r.below(2) as u8, r.below(2) as u8],
        pending: if r.once_in(3) { r.below(3) as u8 } else { 0 },
        bilc: stations(r),
        bslg: stations(r),
        reminder: stations(r),
        occupied: set(r, all),
        held_towards_b: if r.once_in(2) { 0 } else { set(r, all & !1) },
        held_towards_a: if r.once_in(2) { 0 } else { set(r, all & !line.last()) },
        mark: 0,
        count: 0,
    }
}

/// The situation without mark and count, which is sound if it was.
fn unmarked(situation: Situation) -> Situation {
    Situation { mark: 0, count: 0, ..situation }
}

/// A sound situation without the mark.
pub fn sound(r: &mut Random, line: &Line) -> Situation {
    for _ in 0..64 {
        let situation = in_range(r, line);
        if situation.is_sound(line) {
            return situation;
        }
    }
    Situation::FRESH
}

/// A sound situation in which an order meets what is on the line: sections
/// occupied, exit routes at A, at B or at both. What would refuse the order
/// before is mostly away.
pub fn in_use(r: &mut Random, line: &Line) -> Situation {
    for _ in 0..64 {
        let mut situation = in_range(r, line);
        situation.pending = r.below(3) as u8;
        situation.occupied &= !0 << r.below(line.sections().into());
        situation.exit =
            situation.orientation.map(|orientation| if orientation == IN { 0 } else { r.below(3) as u8 });
        if !r.once_in(4) {
            situation = Situation { link: 1, annulment: [NONE; 2], bilc: 0, reminder: 0, ..situation };
        }
        if situation.is_sound(line) {
            return situation;
        }
    }
    Situation::FRESH
}

/// Held signals of one direction, of these block signals: none, some of one
/// station's area or some of both.
fn held(r: &mut Random, line: &Line, signals: u16) -> u16 {
    match r.below(5) {
        0 => set(r, signals & line.area(0)),
        1 => set(r, signals & line.area(1)),
        2 => set(r, signals),
        _ => 0,
    }
}

/// A situation that is sound by 2024, with pairs that the 2012 rules exclude or
/// near to one: an annulment, BILC, BSLG and held signals of both directions at
/// the same station or at the other. What would refuse an order before is
/// mostly away.
pub fn paired(r: &mut Random, line: &Line) -> Situation {
    for _ in 0..64 {
        let mut situation = in_range(r, line);
        situation.annulment = [0; 2].map(|_| r.pick(&[NONE, NONE, AFBLI, AFBLE]));
        if situation.annulment != [NONE; 2] {
            situation.orientation = [NONE; 2];
        }
        situation.held_towards_b = held(r, line, line.all() & !1);
        situation.held_towards_a = held(r, line, line.all() & !line.last());
        if !r.once_in(4) {
            situation = Situation { exit: [0; 2], entry: [0; 2], pending: 0, ..situation };
        }
        if situation.is_sound(&line.under(Edition::Of2024)) {
            return situation;
        }
    }
    Situation::FRESH
}

/// The situation without such pairs, which is sound by both editions if it was
/// by 2024: of each pair the annulment is away, or what it excludes.
pub fn unpaired(r: &mut Random, line: &Line, mut situation: Situation) -> Situation {
    for station in 0..2 {
        if r.once_in(3) {
            situation.annulment[station] = NONE;
        }
        if situation.annulment[station] != NONE {
            situation.bilc &= !(1 << station);
            situation.bslg &= !(1 << station);
            situation.held_towards_b &= !line.area(station);
            situation.held_towards_a &= !line.area(station);
        }
    }
    situation
}

/// A situation that accepted events lead to, from the fresh one or a sound
/// one, with no mark left by any of them.
pub fn reached(r: &mut Random, line: &Line) -> Situation {
    let mut situation = if r.once_in(2) { Situation::FRESH } else { sound(r, line) };
    for _ in 0..r.below(24) {
        let _ = situation.apply(line, event(r, line));
        situation = unmarked(situation);
    }
    situation
}

/// A sound situation without the mark, one way or the other.
pub fn sound_or_reached(r: &mut Random, line: &Line) -> Situation {
    if r.once_in(2) { sound(r, line) } else { reached(r, line) }
}

/// A sound situation with no section occupied, no exit route and no mark. What
/// would refuse an exit route is mostly away.
pub fn empty_line(r: &mut Random, line: &Line) -> Situation {
    let situation = if r.once_in(4) { sound(r, line) } else { in_use(r, line) };
    Situation { occupied: 0, exit: [0; 2], ..situation }
}

/// A sound situation on which the count runs, at its ends more often.
pub fn counting(r: &mut Random, line: &Line) -> Situation {
    let count = match r.below(4) {
        0 => 1,
        1 => TEN_SECONDS,
        2 => r.from(2, 4) as u8,
        _ => r.from(1, TEN_SECONDS.into()) as u8,
    };
    Situation { mark: 1, count, ..empty_line(r, line) }
}

/// A sound situation with the mark: the count runs, or one or some sections
/// are occupied.
pub fn marked(r: &mut Random, line: &Line) -> Situation {
    if r.once_in(2) {
        return counting(r, line);
    }
    let mut occupied = 1 << (section(r, line) - 1);
    if r.once_in(2) {
        occupied |= set(r, line.all());
    }
    Situation { occupied, mark: 1, ..empty_line(r, line) }
}

/// A situation that accepted events lead to, seconds among them, with the mark
/// if they leave it.
pub fn reached_in_time(r: &mut Random, line: &Line) -> Situation {
    let mut situation = if r.once_in(2) { empty_line(r, line) } else { marked(r, line) };
    for _ in 0..r.below(24) {
        let event = event_in_time(r, line, &situation);
        let _ = situation.apply(line, event);
    }
    situation
}

/// A situation without the mark: sound, in range, changed in some bytes, of any
/// bytes.
pub fn any_unmarked(r: &mut Random, line: &Line) -> Situation {
    let mut bytes = [0; LENGTH];
    match r.below(8) {
        0..3 => return sound_or_reached(r, line),
        3 | 4 => return in_range(r, line),
        5 | 6 => {
            bytes = sound_or_reached(r, line).to_bytes();
            for _ in 0..r.from(1, 3) {
                let at = r.index(SHORT_LENGTH);
                bytes[at] = changed_byte(r, bytes[at]);
            }
        }
        _ => {
            for byte in &mut bytes[..SHORT_LENGTH] {
                *byte = if r.once_in(8) { r.byte() } else { r.below(4) as u8 };
            }
        }
    }
    Situation::from_bytes(&bytes)
}

/// A situation for record SJ: sound ones; marks and counts that do not go with
/// each other or with the rest, or out of range; both zero; on any situation.
pub fn any_marked(r: &mut Random, line: &Line) -> Situation {
    let marked = marked(r, line);
    let (mark, count) = (r.below(2) as u8, r.below(u64::from(TEN_SECONDS) + 1) as u8);
    match r.below(16) {
        0..8 => marked,
        8 => Situation { mark, count, ..marked },
        9 => Situation { mark: changed_byte(r, marked.mark), ..marked },
        10 => Situation { count: changed_byte(r, marked.count), ..marked },
        11 => Situation { count: r.pick(&[9, 10, 11, 12, 128, 255]), ..marked },
        12 => unmarked(marked),
        13 if marked.occupied == 0 => Situation { occupied: set(r, line.all()), ..marked },
        13 => Situation { occupied: 0, ..marked },
        14 => Situation { exit: [r.below(3) as u8, r.below(3) as u8], ..marked },
        _ => Situation { mark, count, ..any_unmarked(r, line) },
    }
}

/// Another value for a byte: a small one, a neighbour, one bit, any.
pub fn changed_byte(r: &mut Random, byte: u8) -> u8 {
    match r.below(4) {
        0 => r.below(5) as u8,
        1 => byte.wrapping_add(r.pick(&[1, 255])),
        2 => byte ^ 1 << r.below(8),
        _ => r.byte(),
    }
}

fn section(r: &mut Random, line: &Line) -> u8 {
    match r.below(4) {
        0 => r.pick(&[1, line.frontier(), line.frontier() + 1, line.sections()]),
        _ => r.from(1, line.sections().into()) as u8,
    }
}

/// Any signal of the line.
pub fn signal(r: &mut Random, line: &Line) -> u8 {
    section(r, line) + r.pick(&[0, 128])
}

/// A block signal of the line.
pub fn block_signal(r: &mut Random, line: &Line) -> u8 {
    loop {
        let signal = signal(r, line);
        if line.is_block_signal(signal) {
            return signal;
        }
    }
}

/// One of the occupied sections, if there are some.
fn occupied_section(r: &mut Random, line: &Line, situation: &Situation) -> u8 {
    let is_occupied = |k: &u8| situation.occupied >> (k - 1) & 1 == 1;
    let occupied: Vec<u8> = (1..=line.sections()).filter(is_occupied).collect();
    if occupied.is_empty() { section(r, line) } else { r.pick(&occupied) }
}

/// An event in range, no second. Those that only turn one thing on and off come
/// less often.
pub fn event(r: &mut Random, line: &Line) -> Event {
    let code = match r.below(4) {
        0 => r.from(1, 22) as u8,
        1 => r.pick(&[events::SOBB, events::COBB, events::SOBB, events::COBB, events::DAFBL]),
        2 => r.pick(&[events::AFBLI_ORDER, events::AFBLE_ORDER, events::LINK_LOST, events::LINK_RESTORED]),
        _ => r.from(events::EXIT_NORMAL.into(), events::FREED.into()) as u8,
    };
    let argument = match code {
        events::BSLB | events::BSLB_RELEASE => block_signal(r, line),
        events::OCCUPIED | events::FREED => section(r, line),
        events::LINK_LOST | events::LINK_RESTORED => 0,
        _ => r.below(2) as u8,
    };
    Event { code, argument }
}

/// The orders that an occupied section or an exit route may refuse: by 9, by
/// 13 and by 15.
pub const MET: [u8; 7] = [
    events::SOBB,
    events::COBB,
    events::AFBLI_ORDER,
    events::AFBLE_ORDER,
    events::BILC,
    events::EXIT_NORMAL,
    events::EXIT_SPECIAL,
];

/// The orders of a station that exclude each other by the 2012 rules.
pub const EXCLUSIVE: [u8; 4] = [events::AFBLI_ORDER, events::AFBLE_ORDER, events::BILC, events::BSLG];

/// An event in range that has to do with what the 2012 rules exclude: an
/// annulment, BILC, BSLG or BSLB, or its release; now and then another one.
pub fn exclusive_event(r: &mut Random, line: &Line) -> Event {
    let (code, argument) = match r.below(8) {
        0..3 => (r.pick(&EXCLUSIVE), r.below(2) as u8),
        3 | 4 => (events::BSLB, block_signal(r, line)),
        5 => (r.pick(&[events::DAFBL, events::DILC, events::BSLG_RELEASE]), r.below(2) as u8),
        6 => (events::BSLB_RELEASE, block_signal(r, line)),
        _ => return event(r, line),
    };
    Event { code, argument }
}

/// "One second passed, argument 0."
pub const SECOND: Event = Event { code: events::SECOND, argument: 0 };

/// An event in range that has to do with mark and count: a second, a section
/// occupied or freed, an exit route; now and then another one.
pub fn event_in_time(r: &mut Random, line: &Line, situation: &Situation) -> Event {
    match r.below(8) {
        0..3 => SECOND,
        3 => Event { code: events::OCCUPIED, argument: section(r, line) },
        4 | 5 => Event { code: events::FREED, argument: occupied_section(r, line, situation) },
        6 => exit_route(r),
        _ => event(r, line),
    }
}

/// An exit route set or released.
fn exit_route(r: &mut Random) -> Event {
    let code = r.pick(&[events::EXIT_NORMAL, events::EXIT_SPECIAL, events::EXIT_RELEASE]);
    Event { code, argument: r.below(2) as u8 }
}

/// An event that turns the orientation where the line is free: an exit route,
/// or a station's first section occupied.
pub fn turning_event(r: &mut Random, line: &Line) -> Event {
    match r.pick(&[events::EXIT_NORMAL, events::EXIT_SPECIAL, events::OCCUPIED]) {
        events::OCCUPIED => Event { code: events::OCCUPIED, argument: line.first_section(r.index(2)) },
        code => Event { code, argument: r.below(2) as u8 },
    }
}

/// What comes with a stray occupation, from a line that is empty: sections that
/// become occupied, the same ones freed, about ten seconds; now and then
/// something else between.
pub fn stray_events(r: &mut Random, line: &Line) -> Vec<Event> {
    let mut sections: Vec<u8> = (0..r.from(1, 3)).map(|_| section(r, line)).collect();
    sections.sort();
    sections.dedup();
    if r.once_in(2) {
        sections.reverse();
    }
    let of_each = |code: u8| sections.iter().map(move |&argument| Event { code, argument });
    let mut events: Vec<Event> = of_each(events::OCCUPIED).chain(of_each(events::FREED)).collect();
    events.extend(std::iter::repeat_n(SECOND, r.from(8, 12) as usize));
    if r.once_in(2) {
        let event = if r.once_in(2) { exit_route(r) } else { event_in_time(r, line, &Situation::FRESH) };
        events.insert(r.index(events.len()), event);
    }
    events
}

/// The two bytes of a second, with another argument now and then.
pub fn second_bytes(r: &mut Random) -> [u8; 2] {
    [events::SECOND, if r.once_in(4) { changed_byte(r, 0) } else { 0 }]
}

/// An event's two bytes, in range or not.
pub fn event_bytes(r: &mut Random, line: &Line) -> [u8; 2] {
    let Event { code, argument } = event(r, line);
    match r.below(8) {
        0 => [code, changed_byte(r, argument)],
        1 => [r.from(0, 24) as u8, argument],
        2 if r.once_in(2) => [r.byte(), r.byte()],
        _ => [code, argument],
    }
}

/// A reading's kind and argument, in range.
pub fn reading(r: &mut Random, line: &Line) -> [u8; 2] {
    match r.below(5) {
        0 | 1 => [readings::ASPECT, signal(r, line)],
        2 => [readings::LINE, 0],
        _ => [r.from(2, 4) as u8, r.below(2) as u8],
    }
}

/// The kind and argument of a reading, in range or not.
pub fn reading_bytes(r: &mut Random, line: &Line) -> [u8; 2] {
    let [kind, argument] = reading(r, line);
    match r.below(8) {
        0 => [kind, changed_byte(r, argument)],
        1 => [r.below(8) as u8, argument],
        2 if r.once_in(2) => [r.byte(), r.byte()],
        _ => [kind, argument],
    }
}

/// Letters of records, here and elsewhere.
const LETTERS: [[u8; 2]; 14] = [
    *b"LB", *b"SI", *b"SJ", *b"EV", *b"RD", *b"LN", *b"LC", *b"SK", *b"SL", *b"XC", *b"XF", *b"EW", *b"lb",
    *b"sj",
];

/// The bytes of a record, damaged: none, with other letters, cut short, with
/// bytes left over, with a byte too many or too few within, twice.
fn damaged_record(r: &mut Random, record: &[u8]) -> Vec<u8> {
    let mut bytes = record.to_vec();
    match r.below(9) {
        0 => bytes.clear(),
        1 => {
            let at = r.index(2);
            bytes[at] = changed_byte(r, bytes[at]);
        }
        2 => bytes[..2].copy_from_slice(&r.pick(&LETTERS)),
        3 => bytes.swap(0, 1),
        4 => bytes.truncate(r.index(record.len())),
        5 => {
            for _ in 0..r.from(1, 24) {
                bytes.push(r.byte());
            }
        }
        6 => bytes.insert(r.index(record.len()), r.byte()),
        7 => {
            bytes.remove(r.index(record.len()));
        }
        _ => bytes.extend_from_slice(record),
    }
    bytes
}

/// What is lent to a call as plan, and the line to choose the rest for.
pub fn lent_plan(r: &mut Random) -> (Vec<u8>, Line) {
    let line = line(r);
    lent_plan_of(r, line)
}

/// The same for a line: mostly the record of its plan, LB or LC, now and then
/// with other numbers in it, damaged now and then.
pub fn lent_plan_of(r: &mut Random, line: Line) -> (Vec<u8>, Line) {
    let mut plan = line.plan();
    match r.below(24) {
        0 => plan.sections = changed_byte(r, plan.sections),
        1 => plan.frontier = changed_byte(r, plan.frontier),
        _ => {}
    }
    let record = records::plan_record(plan);
    let bytes = match r.below(40) {
        0 | 1 => damaged_record(r, &record),
        2 | 3 => mistaken_plan(r, plan),
        _ => record.to_vec(),
    };
    (bytes, Line::new(plan).unwrap_or(line))
}

/// The letters LB or LC before the bytes of either, with another last byte too,
/// or before some fewer or more.
fn mistaken_plan(r: &mut Random, plan: Plan) -> Vec<u8> {
    let letters = r.pick(&[b"LB", b"LC"]);
    let last = if r.once_in(2) { 1 } else { changed_byte(r, 1) };
    let mut bytes = [&letters[..], &[plan.sections, plan.frontier, last, r.byte()]].concat();
    bytes.truncate(r.from(records::LB as u64 - 1, records::LC as u64 + 1) as usize);
    bytes
}

/// What is lent to a call as situation: a record of any situation, SI or SJ,
/// sound by the line's edition or not, damaged now and then.
pub fn lent_situation(r: &mut Random, line: &Line) -> Vec<u8> {
    let record = match r.below(10) {
        0..4 => any_unmarked(r, line).to_record().to_vec(),
        4 | 5 => paired(r, line).to_record().to_vec(),
        6 => reached_in_time(r, line).to_record().to_vec(),
        _ => any_marked(r, line).to_long_record().to_vec(),
    };
    match r.below(40) {
        0 | 1 => damaged_record(r, &record),
        2 => mistaken_record(r, line),
        _ => record,
    }
}

/// The letters SI or SJ before the bytes of either, or before some fewer or
/// more.
fn mistaken_record(r: &mut Random, line: &Line) -> Vec<u8> {
    let letters = r.pick(&[b"SI", b"SJ"]);
    let mut bytes = [&letters[..], &any_marked(r, line).to_bytes(), &[0, r.byte()]].concat();
    bytes.truncate(r.from(records::SI as u64 - 1, records::SJ as u64 + 2) as usize);
    bytes
}

/// What is lent to a call as event or as reading: two bytes, now and then
/// fewer or more.
pub fn lent_pair(r: &mut Random, pair: [u8; 2]) -> Vec<u8> {
    let mut bytes = pair.to_vec();
    if r.once_in(20) {
        let filling = if r.once_in(2) { 0 } else { r.byte() };
        bytes.resize(r.pick(&[0, 1, 1, 3, 3, 4, 6, 21]), filling);
    }
    bytes
}

/// How much of a search a question may ask for: the number of sequences that
/// its count of events and its length allow.
#[derive(Clone, Copy)]
pub enum Search {
    Small,
    Any,
}

/// An accepted question of either edition.
pub fn question(r: &mut Random, search: Search) -> Question {
    let line = line(r);
    question_on(r, search, line)
}

/// An accepted question on a line. Its readings mostly hold somewhere in its
/// key.
pub fn question_on(r: &mut Random, search: Search, line: Line) -> Question {
    let start = match r.below(4) {
        0 => Situation::FRESH,
        1 => reached(r, &line),
        _ => sound(r, &line),
    };
    question_from(r, search, line, start, event)
}

/// An accepted question on a line in use, which lists many orders that meet
/// what is on it.
pub fn question_in_use(r: &mut Random) -> Question {
    let line = line(r);
    let start = in_use(r, &line);
    question_from(r, Search::Small, line, start, |r, line| match r.below(3) {
        0 => event(r, line),
        _ => Event { code: r.pick(&MET), argument: r.below(2) as u8 },
    })
}

/// An accepted question on a line with the mark or on which it may come, which
/// lists seconds and what else has to do with it.
pub fn question_in_time(r: &mut Random, search: Search) -> Question {
    let line = line(r);
    let start = match r.below(4) {
        0 => empty_line(r, &line),
        1 => reached_in_time(r, &line),
        _ => marked(r, &line),
    };
    question_from(r, search, line, start, |r, line| event_in_time(r, line, &start))
}

/// An accepted question that lists orders which the 2012 rules exclude, from a
/// situation that is sound by both editions.
pub fn question_of_exclusions(r: &mut Random, search: Search) -> Question {
    let line = line(r);
    let paired = paired(r, &line);
    let start = unpaired(r, &line, paired);
    question_from(r, search, line, start, exclusive_event)
}

fn question_from(
    r: &mut Random,
    search: Search,
    line: Line,
    start: Situation,
    event: impl Fn(&mut Random, &Line) -> Event,
) -> Question {
    let count = if r.once_in(3) { 12 } else { r.from(1, 12) as usize };
    let mut length = r.below(6) as u8;
    if let Search::Small = search {
        while length > 0 && count.pow(length.into()) > 2_000 {
            length -= 1;
        }
    }
    let mut listed: Vec<[u8; 2]> = Vec::with_capacity(count);
    while listed.len() < count {
        let event = event(r, &line).to_bytes();
        if !listed.contains(&event) {
            listed.push(event);
        }
    }
    let mut there = start;
    for _ in 0..r.below(u64::from(length) + 1) {
        let [code, argument] = r.pick(&listed);
        let _ = there.apply(&line, Event { code, argument });
    }
    let reading_count = if r.once_in(3) { 0 } else { r.below(7) as usize };
    let mut asked = Vec::with_capacity(reading_count);
    for _ in 0..reading_count {
        let [kind, argument] = reading(r, &line);
        let value = if r.once_in(12) {
            r.below(if kind == readings::LINE { 2 } else { 3 }) as u8
        } else {
            readings::value(&line, &there, kind, argument)
        };
        asked.push([kind, argument, value]);
    }
    Parts { plan: line.plan(), situation: start.to_bytes(), events: &listed, readings: &asked, length }
        .accept()
        .expect("a question in range")
}

/// The bytes of a question.
pub fn question_bytes(question: &Question) -> Vec<u8> {
    let mut bytes = vec![0; 128];
    let length = question.write(&mut bytes).expect("room");
    bytes.truncate(length);
    bytes
}

/// The bytes of a question with others in the place of its plan's record.
pub fn with_plan(question: &Question, plan: &[u8]) -> Vec<u8> {
    let mut bytes = question_bytes(question);
    let [from, to, ..] = records(question);
    bytes.splice(from..to, plan.iter().copied());
    bytes
}

/// The bytes of the same question by the rules of an edition, where it need not
/// be accepted.
pub fn question_under(question: &Question, edition: Edition) -> Vec<u8> {
    with_plan(question, &question.line().under(edition).to_record())
}

/// The bytes of a question with others in the place of its situation's record.
pub fn with_situation(question: &Question, situation: &[u8]) -> Vec<u8> {
    let mut bytes = question_bytes(question);
    let [_, from, to, ..] = records(question);
    bytes.splice(from..to, situation.iter().copied());
    bytes
}

/// Where each record of a question starts, and the end.
fn records(question: &Question) -> [usize; 6] {
    let situation = question.line().to_record().len();
    let events = situation + question.situation().to_record().len();
    let readings = events + 3 + 2 * question.events().len();
    let length = readings + 3 + 3 * question.readings().len();
    [0, situation, events, readings, length, length + 3]
}

/// The bytes of a question, damaged in one or two of many ways.
pub fn damaged(r: &mut Random, question: &Question) -> Vec<u8> {
    let mut bytes = question_bytes(question);
    let at = records(question);
    let count = question.events().len();
    match r.below(12) {
        0 => {
            for _ in 0..r.from(1, 3) {
                let at = r.index(bytes.len());
                bytes[at] = changed_byte(r, bytes[at]);
            }
        }
        1 => bytes.truncate(r.index(bytes.len())),
        2 => {
            for _ in 0..r.from(1, 9) {
                bytes.push(r.byte());
            }
        }
        // A byte too many or too few somewhere within.
        3 => bytes.insert(r.index(at[5]), r.byte()),
        4 => {
            bytes.remove(r.index(at[5]));
        }
        // A count that does not fit, or one out of range with items to match.
        5 => {
            let place = r.pick(&[at[2] + 2, at[3] + 2]);
            bytes[place] = changed_byte(r, bytes[place]);
        }
        6 => {
            let more = r.from(1, 10) as usize;
            let item = &bytes[at[2] + 3..at[2] + 5].to_vec();
            bytes[at[2] + 2] += more as u8;
            for _ in 0..more {
                bytes.splice(at[3]..at[3], item.iter().copied());
            }
        }
        7 => {
            let more = r.from(1, 7) as usize;
            bytes[at[3] + 2] += more as u8;
            for _ in 0..more {
                bytes.splice(at[4]..at[4], [5, 0, r.below(3) as u8]);
            }
        }
        // An event listed twice.
        8 if count > 1 => {
            let from = at[2] + 3 + 2 * r.index(count);
            let to = at[2] + 3 + 2 * r.index(count);
            bytes.copy_within(from..from + 2, to);
        }
        // Two records in each other's place.
        9 => {
            let first = r.index(4);
            let second = r.from(first as u64 + 1, 4) as usize;
            let mut order = [0, 1, 2, 3, 4];
            order.swap(first, second);
            bytes = order.iter().flat_map(|&k| bytes[at[k]..at[k + 1]].to_vec()).collect();
        }
        // A plan, a situation, events and readings that do not belong
        // together.
        10 => {
            let line = line_of(r, question.line().edition());
            if r.once_in(2) {
                bytes[at[0]..at[1]].copy_from_slice(&line.to_record());
            }
            if r.once_in(2) {
                let situation =
                    if at[2] - at[1] == records::SI { any_unmarked(r, &line) } else { any_marked(r, &line) };
                bytes[at[1] + 2..at[2]].copy_from_slice(&situation.to_bytes()[..at[2] - at[1] - 2]);
            }
            let place = at[2] + 3 + 2 * r.index(count);
            bytes[place..place + 2].copy_from_slice(&event_bytes(r, &line));
            if r.once_in(2) {
                bytes[at[4] + 2] = r.from(0, 8) as u8;
            }
        }
        _ => {
            let readings = question.readings().len();
            if readings > 0 {
                let place = at[3] + 3 + 3 * r.index(readings);
                let [kind, argument] = reading_bytes(r, question.line());
                bytes[place..place + 3].copy_from_slice(&[kind, argument, r.below(5) as u8]);
            } else {
                bytes[at[4] + 2] = r.byte();
            }
        }
    }
    bytes
}

/// A slot within the question: any sequence of its places, one that runs but
/// for the count, or one of the answers given.
pub fn slot(r: &mut Random, question: &Question, answers: &[u8]) -> [u8; SLOT] {
    let (answers, _) = answers.as_chunks::<SLOT>();
    if !answers.is_empty() && r.once_in(2) {
        return r.pick(answers);
    }
    let mut slot = [0; SLOT];
    let length = r.below(question.length() as u64 + 1) as usize;
    let count = question.events().len() as u64;
    slot[0] = length as u8;
    let mut situation = unmarked(*question.situation());
    let runs = !r.once_in(4);
    for place in &mut slot[1..=length] {
        *place = r.from(1, count) as u8;
        // A few tries for an event that is accepted.
        for _ in 0..if runs { 8 } else { 0 } {
            let event = question.events()[usize::from(*place - 1)];
            if situation.apply(question.line(), event).is_ok() {
                situation = unmarked(situation);
                break;
            }
            *place = r.from(1, count) as u8;
        }
    }
    slot
}

/// A slot within the question whose last place, if it has one, is the one
/// given.
pub fn slot_to(r: &mut Random, question: &Question, place: usize) -> [u8; SLOT] {
    let mut slot = slot(r, question, &[]);
    if slot[0] != 0 {
        slot[usize::from(slot[0])] = place as u8;
    }
    slot
}

/// Bytes that are meant as a slot: within the question, the start, malformed,
/// of another length.
pub fn slot_bytes(r: &mut Random, question: &Question, answers: &[u8]) -> Vec<u8> {
    let mut slot = slot(r, question, answers);
    match r.below(10) {
        0..5 => slot.to_vec(),
        5 => START.to_vec(),
        6 => {
            for _ in 0..r.from(1, 2) {
                let at = r.index(SLOT);
                slot[at] = match r.below(4) {
                    0 => 0,
                    1 => question.events().len() as u8 + r.below(2) as u8,
                    _ => changed_byte(r, slot[at]),
                };
            }
            slot.to_vec()
        }
        7 => {
            slot[0] = r.pick(&[question.length() as u8, question.length() as u8 + 1, 5, 6, 254, 255]);
            slot.to_vec()
        }
        8 => {
            let mut start = START;
            start[r.index(SLOT)] = r.byte();
            start.to_vec()
        }
        _ => {
            let mut bytes = slot.to_vec();
            bytes.resize(r.below(13) as usize, 0);
            if r.once_in(2) {
                r.fill(&mut bytes);
            }
            bytes
        }
    }
}

/// The exact answer of a numeric question as a fraction.
fn exact(kind: u32, amount: u32, speed: u32) -> (u64, u64) {
    let (amount, speed) = (u64::from(amount), u64::from(speed));
    if kind == 1 { (18 * amount, 5 * speed) } else { (5 * speed * amount, 18) }
}

/// A number of a range, with its borders more often.
fn bordered(r: &mut Random, first: u32, last: u32) -> u32 {
    match r.below(8) {
        0 => first,
        1 => last,
        2 => r.from(first.into(), u64::from(last).min(u64::from(first) + 40)) as u32,
        _ => r.from(first.into(), last.into()) as u32,
    }
}

/// A numeric question and a typed answer: kind, amount, speed, tolerance,
/// unit, pattern.
pub fn typed(r: &mut Random) -> [u32; 6] {
    let mut kind = r.from(1, 2) as u32;
    let mut amount = bordered(r, 1, if kind == 1 { 20_000 } else { 10_000 });
    let mut speed = bordered(r, 1, 200);
    let mut tolerance = match r.below(4) {
        0 => r.pick(&[0, 1, 31, 32, 33, 50]),
        _ => bordered(r, 0, 10_000),
    };
    if r.once_in(12) {
        // An exact answer of so many whole thousandths, and these as
        // tolerance: zero is just right.
        for _ in 0..40 {
            let (a, s) = (r.from(1, 60) as u32, r.from(1, 200) as u32);
            let (above, below) = exact(kind, a, s);
            if 1000 * above % below == 0 && 1000 * above / below <= 10_000 {
                (amount, speed, tolerance) = (a, s, (1000 * above / below) as u32);
                break;
            }
        }
    }
    let mut unit = if r.once_in(12) { r.below(3) as u32 } else { kind };
    let pattern = typed_pattern(r, kind, amount, speed, tolerance);
    match r.below(40) {
        0 => kind = r.pick(&[0, 3, 255, 4]),
        1 => amount = r.pick(&[0, 10_001, 20_001, 20_000, u32::MAX, 1 << 31]),
        2 => speed = r.pick(&[0, 201, 256, 257, u32::MAX]),
        3 => tolerance = r.pick(&[10_001, 10_000, 65_536, u32::MAX]),
        4 => unit = r.from(0, 255) as u32,
        5 => amount = r.word() as u32,
        _ => {}
    }
    [kind, amount, speed, tolerance, unit, pattern]
}

fn typed_pattern(r: &mut Random, kind: u32, amount: u32, speed: u32, tolerance: u32) -> u32 {
    let (above, below) = exact(kind, amount, speed);
    let exact = above as f64 / below as f64;
    // A float near a value, some steps away.
    let near = |r: &mut Random, value: f64| {
        let steps = r.below(9) as i32 - 4;
        ((value as f32).to_bits() as i32).wrapping_add(steps) as u32
    };
    let tolerance = f64::from(tolerance) / 1000.0;
    match r.below(12) {
        0 => near(r, exact + tolerance),
        1 => near(r, exact - tolerance),
        2 => near(r, exact),
        // Near a whole number of thousandths away.
        3 => {
            let thousandths = r.below(20_001) as f64 - 10_000.0;
            near(r, exact + thousandths / 1000.0)
        }
        // Near where the error is held.
        4 => {
            let held = r.pick(&[1000.0, -1000.0]);
            near(r, exact + held)
        }
        5 => {
            let millionths = r.below(2001) as f64 - 1000.0;
            near(r, exact * (1.0 + millionths / 1e6))
        }
        // Zeros, subnormals and the least numbers, of both signs.
        6 => {
            let sign = (r.below(2) as u32) << 31;
            let size = match r.below(6) {
                0 => 0,
                1 => r.below(4) as u32,
                2 => r.below(1 << 23) as u32,
                3 => (1 << 23) - 2 + r.below(4) as u32,
                // Around the numbers where the exponent is small.
                4 => (r.from(1, 120) as u32) << 23 | r.word() as u32 & 0x7f_ffff,
                _ => (r.from(60, 130) as u32) << 23,
            };
            sign | size
        }
        // Infinities and what is no number, with all payloads, and the
        // greatest numbers.
        7 => {
            let sign = (r.below(2) as u32) << 31;
            let any = r.word() as u32 & 0x7f_ffff;
            let payload = r.pick(&[0, 1, 1 << 22, 1 << 22 | 1, 0x7f_ffff, any, any]);
            sign | r.pick(&[255, 255, 254]) << 23 | payload
        }
        // 2^23 and around it, where floats become whole numbers.
        8 => {
            let sign = (r.below(2) as u32) << 31;
            sign | (r.from(140, 160) as u32) << 23 | r.word() as u32 & 0x7f_ffff
        }
        9 => (r.below(4_000_000) as f32 / 4.0 - 200_000.0).to_bits(),
        10 => (r.below(1_000_000) as f32 / 1000.0).to_bits(),
        _ => r.word() as u32,
    }
}

/// A reading of what a situation shows.
pub fn shown(r: &mut Random, line: &Line, situation: &Situation) -> Reading {
    let [kind, argument] = reading(r, line);
    Reading { kind, argument, value: readings::value(line, situation, kind, argument) }
}
