//! The nine calls of the interface for other languages, as one list and one
//! trait: the plain implementation and the library both have them, in the same
//! shapes.

use crate::plain::marking::LINE_LENGTH;
use crate::plain::refusal::number;
use crate::plain::run::Run;
use crate::plain::situation::LENGTH;
use crate::plain::{
    Aspects, Event, Line, Plan, Question, Refusal, Refused, Situation, key, marking, readings, records, run,
};
use crate::told;

/// Hands the list of the nine calls to the macro named. In a line stand
///
/// - what it is called in this package, as a kind of case and as a function,
///   in the vectors files and in the library;
/// - its numbers; the slices that it reads; the room that it writes to. A
///   slice has two names, since it crosses as pointer and length;
/// - what it returns.
///
/// include/folvkin.h has the same for C.
#[macro_export]
macro_rules! with_the_calls {
    ($macro:ident) => {
        $macro! {
            /// Refusals 20, 1.
            Plan plan "plan" folvkin_plan
                () (plan plan_length) () -> u8;

            /// Refusals 20, 1, 2.
            Situation situation "sound" folvkin_situation
                () (plan plan_length, situation situation_length) () -> u8;

            /// Writes the situation after, as its record. Refusals 20, 1, 2,
            /// 3, 4, 24 (a room under 96 bytes), then the event's own, of
            /// which 9 and 13 name whom or what stands in the way. Returns
            /// [`told::Event`](crate::told::Event).
            Event event "event" folvkin_event
                () (plan plan_length, situation situation_length, event event_length) (room room_length) -> u64;

            /// Writes 2n bytes: aspects of 1..n, then of 129..128+n. Refusals
            /// 20, 1, 2, 24.
            Aspects aspects "aspects" folvkin_aspects
                () (plan plan_length, situation situation_length) (room room_length) -> u8;

            /// `reading` is kind and argument. Refusals 20, 1, 2, 21. Returns
            /// [`told::Reading`](crate::told::Reading).
            Reading reading "reading" folvkin_reading
                () (plan plan_length, situation situation_length, reading reading_length) () -> u32;

            /// Refusals 20, 1, 2, 3, 4, 21.
            Question question "question" folvkin_question
                () (question question_length) () -> u8;

            /// Writes the next slots. Refusals of the question, 22, 24.
            /// Returns [`told::Key`](crate::told::Key).
            Key key "key" folvkin_key
                () (question question_length, after after_length) (room room_length) -> u64;

            /// Tells the place, the refusal and the name where an event is
            /// refused. Refusals of the question, 22. Returns
            /// [`told::Run`](crate::told::Run).
            Run run "run" folvkin_run
                () (question question_length, slot slot_length) () -> u64;

            /// Writes the 13 bytes of the sheet line. Refusals 23, 24.
            Mark mark "number" folvkin_mark
                (kind: u8, amount: u32, speed: u32, tolerance: u32, unit: u8, pattern: u32)
                () (room room_length) -> u8;
        }
    };
}

macro_rules! as_a_trait {
    ($(
        $(#[$says:meta])*
        $kind:ident $name:ident $word:literal $symbol:ident
            ($($number:ident: $type:ty),*)
            ($($read:ident $read_length:ident),*)
            ($($room:ident $room_length:ident)?) -> $returned:ty;
    )*) => {
        /// A refusal changes no byte of the room; bytes past what was written
        /// keep their values.
        #[allow(clippy::too_many_arguments)]
        pub trait Interface {
            $($(#[$says])*
            fn $name($($number: $type,)* $($read: &[u8],)* $($room: &mut [u8])?) -> $returned;)*
        }
    };
}

with_the_calls!(as_a_trait);

/// The least room for the situation after an event: none is ever longer.
pub const EVENT_ROOM: usize = 96;

/// The plain implementation. Its calls are not inlined, as calls into a
/// library are not.
pub struct Plain;

/// Plan and situation as they stand in their records.
struct Given {
    plan: Plan,
    situation: [u8; LENGTH],
}

impl Given {
    /// 20 where they are not exactly such records.
    #[inline]
    fn read(plan: &[u8], situation: &[u8]) -> Result<Given, Refusal> {
        let plan = records::alone(plan, records::plan)?;
        let situation = records::alone(situation, records::situation)?;
        Ok(Given { plan, situation })
    }

    /// 1, then 2.
    #[inline]
    fn judge(&self) -> Result<(Line, Situation), Refusal> {
        let line = Line::new(self.plan)?;
        Ok((line, Situation::read(&line, &self.situation)?))
    }
}

/// An event or a reading asked for: 20 where it has another length than two.
#[inline]
fn pair(bytes: &[u8]) -> Result<[u8; 2], Refusal> {
    bytes.as_array().copied().ok_or(Refusal::Form)
}

#[inline]
fn plan_accepted(plan: &[u8]) -> Result<Line, Refusal> {
    Line::new(records::alone(plan, records::plan)?)
}

#[inline]
fn situation_accepted(plan: &[u8], situation: &[u8]) -> Result<(Line, Situation), Refusal> {
    Given::read(plan, situation)?.judge()
}

/// How long the situation is that was written.
#[inline]
fn event_written(plan: &[u8], situation: &[u8], event: &[u8], room: &mut [u8]) -> Result<usize, Refused> {
    let given = Given::read(plan, situation)?;
    let [code, argument] = pair(event)?;
    let (line, mut situation) = given.judge()?;
    let event = Event { code, argument };
    event.check(&line)?;
    let room = room.first_chunk_mut::<EVENT_ROOM>().ok_or(Refusal::Room)?;
    situation.apply_named(&line, event)?;
    Ok(records::write_situation(&situation.to_bytes(), room))
}

#[inline]
fn aspects_written(plan: &[u8], situation: &[u8], room: &mut [u8]) -> Result<(), Refusal> {
    let (line, situation) = situation_accepted(plan, situation)?;
    let room = room.get_mut(..2 * usize::from(line.sections())).ok_or(Refusal::Room)?;
    Aspects::of(&line, &situation).write(&line, room);
    Ok(())
}

#[inline]
fn value_read(plan: &[u8], situation: &[u8], reading: &[u8]) -> Result<u8, Refusal> {
    let given = Given::read(plan, situation)?;
    let [kind, argument] = pair(reading)?;
    let (line, situation) = given.judge()?;
    readings::greatest_value(&line, kind, argument)?;
    Ok(readings::value(&line, &situation, kind, argument))
}

impl Interface for Plain {
    #[inline(never)]
    fn plan(plan: &[u8]) -> u8 {
        number(plan_accepted(plan))
    }

    #[inline(never)]
    fn situation(plan: &[u8], situation: &[u8]) -> u8 {
        number(situation_accepted(plan, situation))
    }

    #[inline(never)]
    fn event(plan: &[u8], situation: &[u8], event: &[u8], room: &mut [u8]) -> u64 {
        match event_written(plan, situation, event, room) {
            Ok(length) => told::Event { length, ..Default::default() }.into(),
            Err(Refused { refusal, name }) => told::Event { refusal: refusal as u8, name, length: 0 }.into(),
        }
    }

    #[inline(never)]
    fn aspects(plan: &[u8], situation: &[u8], room: &mut [u8]) -> u8 {
        number(aspects_written(plan, situation, room))
    }

    #[inline(never)]
    fn reading(plan: &[u8], situation: &[u8], reading: &[u8]) -> u32 {
        match value_read(plan, situation, reading) {
            Ok(value) => told::Reading { refusal: 0, value: value.into() }.into(),
            Err(refusal) => refusal as u32,
        }
    }

    #[inline(never)]
    fn question(question: &[u8]) -> u8 {
        number(Question::read(question))
    }

    #[inline(never)]
    fn key(question: &[u8], after: &[u8], room: &mut [u8]) -> u64 {
        match Question::read(question).and_then(|question| key::key(&question, after, room)) {
            Ok(written) => told::Key { refusal: 0, more: written.more.into(), count: written.count }.into(),
            Err(refusal) => refusal as u64,
        }
    }

    #[inline(never)]
    fn run(question: &[u8], slot: &[u8]) -> u64 {
        match Question::read(question).and_then(|question| run::run(&question, slot)) {
            Ok(Run::Stopped { place, by: Refused { refusal, name } }) => {
                let event_refusal = refusal as u8;
                told::Run { place, event_refusal, name: name.into(), ..Default::default() }.into()
            }
            Ok(Run::Ended { holds }) => told::Run { holds: holds.into(), ..Default::default() }.into(),
            Err(refusal) => refusal as u64,
        }
    }

    #[inline(never)]
    fn mark(
        kind: u8,
        amount: u32,
        speed: u32,
        tolerance: u32,
        unit: u8,
        pattern: u32,
        room: &mut [u8],
    ) -> u8 {
        let line = match marking::mark(kind, amount, speed, tolerance, unit, pattern) {
            Ok(line) => line,
            Err(refusal) => return refusal as u8,
        };
        match room.first_chunk_mut::<LINE_LENGTH>() {
            Some(room) => {
                *room = line.to_bytes();
                0
            }
            None => Refusal::Room as u8,
        }
    }
}
