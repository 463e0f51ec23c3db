//! "Reading: kind, argument, value: 1 any signal's aspect; 2 orientation; 3
//! annulment; 4 exit route (argument station); 5 line (argument 0; 0 free, 1
//! not)."

use super::{Line, Refusal, Situation, aspects};

pub const ASPECT: u8 = 1;
pub const ORIENTATION: u8 = 2;
pub const ANNULMENT: u8 = 3;
pub const EXIT_ROUTE: u8 = 4;
pub const LINE: u8 = 5;

#[derive(Clone, Copy, Debug, PartialEq, Eq)]
pub struct Reading {
    pub kind: u8,
    pub argument: u8,
    pub value: u8,
}

/// The greatest value of a kind at an argument; 21 if there is none.
#[inline]
pub fn greatest_value(line: &Line, kind: u8, argument: u8) -> Result<u8, Refusal> {
    match kind {
        ASPECT if line.is_signal(argument) => Ok(2),
        ORIENTATION | ANNULMENT | EXIT_ROUTE if argument <= 1 => Ok(2),
        LINE if argument == 0 => Ok(1),
        _ => Err(Refusal::Listing),
    }
}

/// The value read, of a kind and argument in range.
#[inline]
pub fn value(line: &Line, situation: &Situation, kind: u8, argument: u8) -> u8 {
    let station = usize::from(argument & 1);
    match kind {
        ASPECT => aspects::aspect(line, situation, argument),
        ORIENTATION => situation.orientation[station],
        ANNULMENT => situation.annulment[station],
        EXIT_ROUTE => situation.exit[station],
        _ => u8::from(!situation.line_is_free()),
    }
}

impl Reading {
    #[inline]
    pub fn check(self, line: &Line) -> Result<(), Refusal> {
        if self.value <= greatest_value(line, self.kind, self.argument)? {
            Ok(())
        } else {
            Err(Refusal::Listing)
        }
    }

    #[inline]
    pub fn holds(self, line: &Line, situation: &Situation) -> bool {
        value(line, situation, self.kind, self.argument) == self.value
    }
}
