//! The key: "The answers from a situation are the empty one if the readings
//! hold, then, for each permitted event in turn that is accepted, the answers
//! from the situation it leads to, while length remains."

use std::ops::ControlFlow;
use std::slice::ChunksExactMut;

use super::{Question, Refusal, Situation};

/// The length of a slot in bytes.
pub const SLOT: usize = 6;

/// "255 and five zeros: from the start."
pub const START: [u8; SLOT] = [255, 0, 0, 0, 0, 0];

/// How many slots were written, and whether more remain.
#[derive(Clone, Copy, Debug, PartialEq, Eq)]
pub struct Written {
    pub count: usize,
    pub more: bool,
}

/// Writes the answers that come after a place, as many as fit. Refusals: 22
/// for the continuation, then 24 for room under six bytes.
pub fn key(question: &Question, after: &[u8], room: &mut [u8]) -> Result<Written, Refusal> {
    let places = if after == START { None } else { Some(question.places(after)?) };
    if room.len() < SLOT {
        return Err(Refusal::Room);
    }
    let mut search = Search {
        question,
        slot: [0; SLOT],
        slots: room.chunks_exact_mut(SLOT),
        written: Written { count: 0, more: false },
    };
    let situation = *question.situation();
    // Broken off means that an answer found no room: `more` is set then.
    let _ = match places {
        None => search.explore(&situation, 0),
        Some(places) => search.resume(&situation, 0, places),
    };
    Ok(search.written)
}

struct Search<'q, 'r> {
    question: &'q Question,
    /// The sequence that is being explored. Its places past the depth are 0.
    slot: [u8; SLOT],
    slots: ChunksExactMut<'r, u8>,
    written: Written,
}

impl Search<'_, '_> {
    /// The answers from a situation that `depth` events have led to.
    fn explore(&mut self, situation: &Situation, depth: usize) -> ControlFlow<()> {
        if self.question.readings_hold(situation) {
            self.answer(depth)?;
        }
        self.extend(situation, depth, 0)
    }

    /// The answers that go on by the event at index `from` or a later one.
    #[inline]
    fn extend(&mut self, situation: &Situation, depth: usize, from: usize) -> ControlFlow<()> {
        if depth < self.question.length() {
            let question = self.question;
            for (index, &event) in question.events().iter().enumerate().skip(from) {
                let mut next = *situation;
                if next.apply(question.line(), event).is_ok() {
                    self.slot[depth + 1] = index as u8 + 1;
                    self.explore(&next, depth + 1)?;
                }
            }
            self.slot[depth + 1] = 0;
        }
        ControlFlow::Continue(())
    }

    /// The answers after the sequence that goes on by `places`: first its own
    /// extensions, then on the way back what comes later at each depth. Where
    /// one of its events is refused, nothing goes on by that event.
    fn resume(&mut self, situation: &Situation, depth: usize, places: &[u8]) -> ControlFlow<()> {
        let Some((&place, rest)) = places.split_first() else {
            return self.extend(situation, depth, 0);
        };
        let index = usize::from(place - 1);
        let mut next = *situation;
        if next.apply(self.question.line(), self.question.events()[index]).is_ok() {
            self.slot[depth + 1] = place;
            self.resume(&next, depth + 1, rest)?;
        }
        self.extend(situation, depth, index + 1)
    }

    #[inline]
    fn answer(&mut self, depth: usize) -> ControlFlow<()> {
        let Some(room) = self.slots.next() else {
            self.written.more = true;
            return ControlFlow::Break(());
        };
        self.slot[0] = depth as u8;
        room.copy_from_slice(&self.slot);
        self.written.count += 1;
        ControlFlow::Continue(())
    }
}
