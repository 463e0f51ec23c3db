//! Cases and answers in the form of the vectors files: one case a line, its
//! answer after a tab. A case is its word, then its numbers in decimal, the
//! bytes that it reads in hex (`-` for none) and the length of its room. An
//! answer is the refusal and then what the call tells: of an event the name
//! and the situation after, of a run place, event's refusal, name and holds.

use std::fmt::{self, Write};

use crate::interface::{Interface, Plain};
use crate::plain::key::{SLOT, START};
use crate::plain::keytext::{refused_text, slots_text};
use crate::plain::marking::LINE_LENGTH;
use crate::{told, with_the_calls};

/// The most numbers that a call has.
pub const NUMBERS: usize = 6;

/// The most slices that a call reads.
pub const READ: usize = 3;

/// The input of one call: its numbers in order, the bytes that it reads, and
/// what the room holds that it may write to. What a call has not is zero or
/// empty.
#[derive(Clone, Copy, Debug)]
pub struct Case<'a> {
    pub kind: Kind,
    pub numbers: [u32; NUMBERS],
    pub read: [&'a [u8]; READ],
    pub room: &'a [u8],
}

/// What came of a call: what it returned, whether the guards around all lent
/// memory and the bytes lent for reading are as they were, and the room.
pub struct Outcome {
    pub returned: u64,
    pub guarded: bool,
    pub read_only: bool,
    pub room: Vec<u8>,
}

/// What a call takes.
pub struct Shape {
    /// What its cases begin with.
    pub word: &'static str,
    /// The greatest value of each of its numbers.
    pub numbers: &'static [u32],
    /// The slices that it reads.
    pub reads: &'static [&'static str],
    /// The room that it writes to, if there is one.
    pub room: Option<&'static str>,
}

/// The first `N` of what is given, with nothing after its end.
fn filled<T: Copy + Default, const N: usize>(given: &[T]) -> [T; N] {
    std::array::from_fn(|at| given.get(at).copied().unwrap_or_default())
}

macro_rules! as_cases {
    ($(
        $(#[$says:meta])*
        $kind:ident $name:ident $word:literal $symbol:ident
            ($($number:ident: $type:ty),*)
            ($($read:ident $read_length:ident),*)
            ($($room:ident $room_length:ident)?) -> $returned:ty;
    )*) => {
        #[derive(Clone, Copy, Debug, PartialEq, Eq)]
        pub enum Kind {
            $($kind),*
        }

        impl Kind {
            pub const ALL: &[Kind] = &[$(Kind::$kind),*];

            pub fn shape(self) -> Shape {
                match self {
                    $(Kind::$kind => Shape {
                        word: $word,
                        numbers: &[$(<$type>::MAX as u32),*],
                        reads: &[$(stringify!($read)),*],
                        room: None$(.or(Some(stringify!($room))))?,
                    },)*
                }
            }
        }

        #[allow(clippy::too_many_arguments)]
        impl<'a> Case<'a> {
            $(pub fn $name($($number: $type,)* $($read: &'a [u8],)* $($room: &'a [u8])?) -> Case<'a> {
                let [room] = filled(&[$($room)?]);
                Case {
                    kind: Kind::$kind,
                    numbers: filled(&[$($number.into()),*]),
                    read: filled(&[$($read),*]),
                    room,
                }
            })*

            /// Makes the call on the memory given, which holds what the case
            /// says.
            #[inline]
            pub fn call<I: Interface>(&self, read: [&[u8]; READ], room: &mut [u8]) -> u64 {
                match self.kind {
                    $(Kind::$kind => {
                        let [$($number,)* ..] = self.numbers;
                        let [$($read,)* ..] = read;
                        $(let $room = room;)?
                        I::$name($($number as $type,)* $($read,)* $($room)?).into()
                    })*
                }
            }
        }
    };
}

with_the_calls!(as_cases);

impl Case<'_> {
    /// How many bytes of its room the call has written, from what it returned.
    pub fn written(&self, returned: u64) -> usize {
        let if_accepted = |length: usize| if returned == 0 { length } else { 0 };
        let written = match self.kind {
            Kind::Event => told::Event::from(returned).length,
            Kind::Aspects => if_accepted(2 * self.sections()),
            Kind::Key => told::Key::from(returned).count.saturating_mul(SLOT),
            Kind::Mark => if_accepted(LINE_LENGTH),
            _ => 0,
        };
        written.min(self.room.len())
    }

    /// n, as it stands in the record of the plan, LB or LC.
    fn sections(&self) -> usize {
        self.read[0].get(2).map_or(0, |&n| n.into())
    }

    /// The answer as text, from what the call returned and the room after.
    pub fn answer(&self, returned: u64, room: &[u8]) -> String {
        let bytes = Hex(&room[..self.written(returned)]);
        match self.kind {
            Kind::Plan | Kind::Situation | Kind::Question => format!("{returned}"),
            Kind::Event => {
                let told = told::Event::from(returned);
                format!("{} {} {bytes}", told.refusal, told.name)
            }
            Kind::Aspects | Kind::Mark => format!("{returned} {bytes}"),
            Kind::Reading => {
                let told = told::Reading::from(returned as u32);
                format!("{} {}", told.refusal, told.value)
            }
            Kind::Key => {
                let told = told::Key::from(returned);
                format!("{} {} {} {bytes}", told.refusal, told.count, told.more)
            }
            Kind::Run => {
                let told = told::Run::from(returned);
                let told::Run { refusal, place, event_refusal, holds, name } = told;
                format!("{refusal} {place} {event_refusal} {name} {holds}")
            }
        }
    }
}

impl fmt::Display for Case<'_> {
    fn fmt(&self, f: &mut fmt::Formatter) -> fmt::Result {
        let shape = self.kind.shape();
        f.write_str(shape.word)?;
        for number in &self.numbers[..shape.numbers.len()] {
            write!(f, " {number}")?;
        }
        for bytes in &self.read[..shape.reads.len()] {
            write!(f, " {}", Hex(bytes))?;
        }
        if shape.room.is_some() {
            write!(f, " {}", self.room.len())?;
        }
        Ok(())
    }
}

/// A case that has its bytes.
pub struct Kept {
    kind: Kind,
    numbers: [u32; NUMBERS],
    read: [Vec<u8>; READ],
    room: Vec<u8>,
}

/// What the rooms of cases read from text hold before the call.
const BEFORE: u8 = 0xa5;

impl Kept {
    pub fn new(case: &Case) -> Kept {
        let Case { kind, numbers, read, room } = *case;
        Kept { kind, numbers, read: read.map(<[u8]>::to_vec), room: room.to_vec() }
    }

    pub fn case(&self) -> Case<'_> {
        let [first, second, third] = &self.read;
        Case { kind: self.kind, numbers: self.numbers, read: [first, second, third], room: &self.room }
    }

    /// The case that stands in a text; none if it is no case.
    pub fn from_text(text: &str) -> Option<Kept> {
        let mut words = text.split(' ');
        let word = words.next()?;
        let kind = *Kind::ALL.iter().find(|kind| kind.shape().word == word)?;
        let shape = kind.shape();
        let mut numbers = [0; NUMBERS];
        for (number, &most) in numbers.iter_mut().zip(shape.numbers) {
            *number = words.next()?.parse().ok().filter(|&number| number <= most)?;
        }
        let mut read = [const { Vec::new() }; READ];
        for bytes in &mut read[..shape.reads.len()] {
            *bytes = from_hex(words.next()?)?;
        }
        let room = match shape.room {
            Some(_) => vec![BEFORE; words.next()?.parse().ok()?],
            None => Vec::new(),
        };
        words.next().is_none().then_some(Kept { kind, numbers, read, room })
    }
}

/// Bytes shown in hex, `-` for none.
struct Hex<'a>(&'a [u8]);

impl fmt::Display for Hex<'_> {
    fn fmt(&self, f: &mut fmt::Formatter) -> fmt::Result {
        if self.0.is_empty() {
            return f.write_char('-');
        }
        self.0.iter().try_for_each(|byte| write!(f, "{byte:02x}"))
    }
}

pub fn hex(bytes: &[u8]) -> String {
    Hex(bytes).to_string()
}

/// The bytes of a hex text, `-` for none.
pub fn from_hex(text: &str) -> Option<Vec<u8>> {
    if text == "-" {
        return Some(Vec::new());
    }
    if !text.len().is_multiple_of(2) || !text.is_ascii() {
        return None;
    }
    (0..text.len()).step_by(2).map(|at| u8::from_str_radix(&text[at..at + 2], 16).ok()).collect()
}

/// Makes a case's call on a room that holds what the case says: what it
/// returned.
pub type Caller = fn(&Case, &mut [u8]) -> u64;

/// The plain implementation's answer to a case.
pub fn plain(case: &Case, room: &mut [u8]) -> u64 {
    case.call::<Plain>(case.read, room)
}

/// The answer to a case written as text; none if the text is no case.
pub fn answer_to(text: &str, caller: Caller) -> Option<String> {
    if let Some(question) = text.strip_prefix("keytext ") {
        return Some(key_text(&from_hex(question)?, caller).replace('\n', "|"));
    }
    let kept = Kept::from_text(text)?;
    let case = kept.case();
    let mut room = case.room.to_vec();
    let returned = caller(&case, &mut room);
    let mut answer = case.answer(returned, &room);
    if room[case.written(returned)..].iter().any(|&byte| byte != BEFORE) {
        answer.push_str(" (bytes past what was written are changed)");
    }
    Some(answer)
}

/// What the key program prints, by calls to the key that go on after the last
/// slot of the call before.
pub fn key_text(question: &[u8], caller: Caller) -> String {
    let mut room = [0; 97 * SLOT];
    let mut slots = Vec::new();
    let mut after = START;
    loop {
        let before = room;
        let told = told::Key::from(caller(&Case::key(question, &after, &before), &mut room));
        if told.refusal != 0 {
            return refused_text(told.refusal);
        }
        slots.extend_from_slice(&room[..told.count * SLOT]);
        if told.more == 0 {
            return slots_text(&slots);
        }
        after.copy_from_slice(&slots[slots.len() - SLOT..]);
    }
}
