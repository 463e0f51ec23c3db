//! A candidate's slot: "it stops at the first refused event and tells its
//! place and refusal, or says whether all readings hold". What the refusal
//! names is told with it.

use super::{Question, Refusal, Refused};

#[derive(Clone, Copy, Debug, PartialEq, Eq)]
pub enum Run {
    /// The place within the slot, from 1, and the event's refusal.
    Stopped {
        place: u8,
        by: Refused,
    },
    Ended {
        holds: bool,
    },
}

/// Refusal 22 for a slot that is malformed.
pub fn run(question: &Question, slot: &[u8]) -> Result<Run, Refusal> {
    let mut situation = *question.situation();
    for (place, &event) in (1..).zip(question.places(slot)?) {
        let event = question.events()[usize::from(event - 1)];
        if let Err(by) = situation.apply_named(question.line(), event) {
            return Ok(Run::Stopped { place, by });
        }
    }
    Ok(Run::Ended { holds: question.readings_hold(&situation) })
}
