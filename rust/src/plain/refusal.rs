//! The refusal numbers, and what an event's refusal names.

#[derive(Clone, Copy, Debug, PartialEq, Eq)]
#[repr(u8)]
pub enum Refusal {
    /// The plan is none.
    Plan = 1,
    /// The situation is not sound.
    Situation = 2,
    /// Unknown event code.
    Code = 3,
    /// The event's argument is out of range.
    Argument = 4,
    /// It is already so, or there is nothing to undo.
    AlreadySo = 5,
    /// The link is down.
    LinkDown = 6,
    /// A SOBB is pending, or not the one that is needed.
    Pending = 7,
    /// The own station is annulled.
    Annulled = 8,
    /// An exit route is set.
    ExitRoute = 9,
    /// The own entry route is set.
    EntryRoute = 10,
    /// BILC is set.
    Bilc = 11,
    /// The own orientation does not allow it.
    Orientation = 12,
    /// The own station is in and a section is occupied, or the count runs.
    TrackNotFree = 13,
    /// The blocking reminder is on.
    Reminder = 14,
    /// The own station is in, "a free track with an exit route at the other
    /// station".
    OtherExitRoute = 15,
    /// BSLG is set, which the 2012 rules exclude.
    Bslg = 16,
    /// A signal of the own area is held, which the 2012 rules exclude.
    Bslb = 17,
    /// A wrong mark, bytes missing or left over, a count out of range, another
    /// last byte in LC.
    Form = 20,
    /// LN above 5, an event listed twice, a reading out of range.
    Listing = 21,
    /// Continuation or candidate's slot malformed.
    Slot = 22,
    /// Numeric question or unit byte out of range.
    Number = 23,
    /// Too little room.
    Room = 24,
}

/// A refusal and whom or what it names: a station by its argument, a section
/// by its number. 9 names a station and 13 a section, 0 where only the count
/// runs; all others have 0.
#[derive(Clone, Copy, Debug, PartialEq, Eq)]
pub struct Refused {
    pub refusal: Refusal,
    pub name: u8,
}

/// A refusal that names nothing.
impl From<Refusal> for Refused {
    #[inline]
    fn from(refusal: Refusal) -> Refused {
        Refused { refusal, name: 0 }
    }
}

/// The number of a result: 0 is accepted.
pub fn number<T>(result: Result<T, Refusal>) -> u8 {
    match result {
        Ok(_) => 0,
        Err(refusal) => refusal as u8,
    }
}
