//! "Checks run in the order written; the first that fails gives the refusal."

use super::line::{A, B, TOWARDS_A};
use super::situation::{AFBLE, AFBLI, IN, NONE, NORMAL, OUT, SPECIAL, TEN_SECONDS};
use super::{Line, Refusal, Refused, Situation};

pub const SOBB: u8 = 1;
pub const COBB: u8 = 2;
pub const AFBLI_ORDER: u8 = 3;
pub const AFBLE_ORDER: u8 = 4;
pub const DAFBL: u8 = 5;
pub const BILC: u8 = 6;
pub const DILC: u8 = 7;
pub const BSLG: u8 = 8;
pub const BSLG_RELEASE: u8 = 9;
pub const BSLB: u8 = 10;
pub const BSLB_RELEASE: u8 = 11;
pub const REMINDER_ON: u8 = 12;
pub const REMINDER_OFF: u8 = 13;
pub const EXIT_NORMAL: u8 = 14;
pub const EXIT_SPECIAL: u8 = 15;
pub const EXIT_RELEASE: u8 = 16;
pub const ENTRY: u8 = 17;
pub const ENTRY_RELEASE: u8 = 18;
pub const OCCUPIED: u8 = 19;
pub const FREED: u8 = 20;
pub const LINK_LOST: u8 = 21;
pub const LINK_RESTORED: u8 = 22;
pub const SECOND: u8 = 23;

/// "An event is two bytes, code and argument."
#[derive(Clone, Copy, Debug, PartialEq, Eq)]
pub struct Event {
    pub code: u8,
    pub argument: u8,
}

type Applied = Result<(), Refusal>;

/// The refusal, if what refuses is so.
#[inline(always)]
fn refuse_if(so: bool, refusal: Refusal) -> Applied {
    if so { Err(refusal) } else { Ok(()) }
}

impl Event {
    pub fn to_bytes(self) -> [u8; 2] {
        [self.code, self.argument]
    }

    /// 3 an unknown code, then 4 an argument out of range.
    #[inline]
    pub fn check(self, line: &Line) -> Applied {
        let in_range = match self.code {
            SOBB..=BSLG_RELEASE | REMINDER_ON..=ENTRY_RELEASE => self.argument <= 1,
            BSLB | BSLB_RELEASE => line.is_block_signal(self.argument),
            OCCUPIED | FREED => line.is_section(self.argument),
            LINK_LOST | LINK_RESTORED | SECOND => self.argument == 0,
            _ => return Err(Refusal::Code),
        };
        refuse_if(!in_range, Refusal::Argument)
    }
}

impl Situation {
    /// An event that has been checked, on a sound situation. A refused one
    /// changes nothing: every check stands before the first write.
    #[inline]
    pub fn apply(&mut self, line: &Line, event: Event) -> Applied {
        let own = usize::from(event.argument & 1);
        match event.code {
            SOBB => self.ask_orientation(own),
            COBB => self.grant_orientation(own),
            AFBLI_ORDER => self.annul(line, own, AFBLI),
            AFBLE_ORDER => self.annul(line, own, AFBLE),
            DAFBL => {
                refuse_if(self.annulment[own] == NONE, Refusal::AlreadySo)?;
                self.annulment[own] = NONE;
                Ok(())
            }
            BILC => {
                refuse_if(self.bilc >> own & 1 == 1, Refusal::AlreadySo)?;
                refuse_if(self.exit[own] != 0, Refusal::ExitRoute)?;
                refuse_if(self.excludes(line, own), Refusal::Annulled)?;
                self.bilc |= 1 << own;
                Ok(())
            }
            DILC => clear(&mut self.bilc, own),
            BSLG => {
                refuse_if(self.bslg >> own & 1 == 1, Refusal::AlreadySo)?;
                refuse_if(self.annulment[own] != NONE, Refusal::Annulled)?;
                self.bslg |= 1 << own;
                Ok(())
            }
            BSLG_RELEASE => clear(&mut self.bslg, own),
            BSLB => {
                // Own is the station whose area the signal's section is in.
                let own = line.owner(event.argument & !TOWARDS_A);
                let excluded = self.excludes(line, own);
                let (held, signal) = self.held(event.argument);
                refuse_if(*held & signal != 0, Refusal::AlreadySo)?;
                refuse_if(excluded, Refusal::Annulled)?;
                *held |= signal;
                Ok(())
            }
            BSLB_RELEASE => {
                let (held, signal) = self.held(event.argument);
                refuse_if(*held & signal == 0, Refusal::AlreadySo)?;
                *held &= !signal;
                Ok(())
            }
            REMINDER_ON => {
                refuse_if(self.reminder >> own & 1 == 1, Refusal::AlreadySo)?;
                self.reminder |= 1 << own;
                Ok(())
            }
            REMINDER_OFF => clear(&mut self.reminder, own),
            EXIT_NORMAL => self.set_exit_route(own, NORMAL),
            EXIT_SPECIAL => self.set_exit_route(own, SPECIAL),
            EXIT_RELEASE => {
                refuse_if(self.exit[own] == 0, Refusal::AlreadySo)?;
                self.exit[own] = 0;
                Ok(())
            }
            ENTRY => {
                refuse_if(self.entry[own] == 1, Refusal::AlreadySo)?;
                self.entry[own] = 1;
                Ok(())
            }
            ENTRY_RELEASE => {
                refuse_if(self.entry[own] == 0, Refusal::AlreadySo)?;
                self.entry[own] = 0;
                Ok(())
            }
            OCCUPIED => self.occupy(line, event.argument),
            FREED => self.free(event.argument),
            LINK_LOST => {
                refuse_if(self.link == 0, Refusal::AlreadySo)?;
                self.link = 0;
                self.pending = 0;
                Ok(())
            }
            LINK_RESTORED => {
                refuse_if(self.link == 1, Refusal::AlreadySo)?;
                self.link = 1;
                if !matches!(self.orientation, [OUT, IN] | [IN, OUT]) {
                    self.orientation = [NONE; 2];
                }
                Ok(())
            }
            SECOND => {
                self.pass_second();
                Ok(())
            }
            _ => Err(Refusal::Code),
        }
    }

    /// The same, and the refusal tells its name. A name is looked for only
    /// here, after a refusal: keys need none.
    #[inline]
    pub fn apply_named(&mut self, line: &Line, event: Event) -> Result<(), Refused> {
        self.apply(line, event).map_err(|refusal| Refused { refusal, name: self.name(event, refusal) })
    }

    /// The order of the calls: 3 and 4, then the event's own.
    pub fn try_event(&mut self, line: &Line, event: Event) -> Result<(), Refused> {
        event.check(line)?;
        self.apply_named(line, event)
    }

    /// What the refusal of an event names, in the situation that refused it.
    fn name(&self, event: Event, refusal: Refusal) -> u8 {
        match refusal {
            // "A running count alone gives 13 with section 0."
            Refusal::TrackNotFree if self.occupied == 0 => 0,
            // "13 stays for an occupied section and now names the lowest
            // occupied one."
            Refusal::TrackNotFree => self.occupied.trailing_zeros() as u8 + 1,
            // "Refusal 9 names the station that holds the route, own where own
            // is checked, else A first if both do."
            Refusal::ExitRoute => match event.code {
                SOBB | COBB => (if self.exit[A] != 0 { A } else { B }) as u8,
                _ => event.argument,
            },
            _ => 0,
        }
    }

    fn ask_orientation(&mut self, own: usize) -> Applied {
        refuse_if(self.annulment[own] != NONE, Refusal::Annulled)?;
        refuse_if(self.link == 0, Refusal::LinkDown)?;
        refuse_if(self.pending != 0, Refusal::Pending)?;
        refuse_if(self.has_exit_route(), Refusal::ExitRoute)?;
        refuse_if(self.orientation[own] == OUT, Refusal::Orientation)?;
        self.pending = asked_by(own);
        Ok(())
    }

    fn grant_orientation(&mut self, own: usize) -> Applied {
        let other = own ^ 1;
        refuse_if(self.annulment[own] != NONE, Refusal::Annulled)?;
        refuse_if(self.link == 0, Refusal::LinkDown)?;
        refuse_if(self.pending != asked_by(other), Refusal::Pending)?;
        refuse_if(self.has_exit_route(), Refusal::ExitRoute)?;
        self.orient(other);
        Ok(())
    }

    /// `out` becomes out and its neighbour in. It is a change wherever it is
    /// called, so the pending SOBB goes.
    #[inline]
    fn orient(&mut self, out: usize) {
        self.orientation[out] = OUT;
        self.orientation[out ^ 1] = IN;
        self.pending = 0;
    }

    fn annul(&mut self, line: &Line, own: usize, annulment: u8) -> Applied {
        refuse_if(self.annulment[own] != NONE, Refusal::Annulled)?;
        refuse_if(self.pending == asked_by(own), Refusal::Pending)?;
        refuse_if(self.exit[own] != 0, Refusal::ExitRoute)?;
        refuse_if(annulment == AFBLE && self.entry[own] != 0, Refusal::EntryRoute)?;
        // "After all checks in 01."
        if let Some(excluded) = self.excluded_by(line, own) {
            return Err(excluded);
        }
        self.annulment[own] = annulment;
        self.orientation[own] = NONE;
        if self.link == 1 {
            self.orientation[own ^ 1] = NONE;
        }
        self.pending = 0;
        Ok(())
    }

    fn set_exit_route(&mut self, own: usize, kind: u8) -> Applied {
        refuse_if(self.exit[own] != 0, Refusal::AlreadySo)?;
        refuse_if(self.bilc >> own & 1 == 1, Refusal::Bilc)?;
        if kind == NORMAL || self.annulment[own] != AFBLE {
            refuse_if(self.annulment[own] != NONE, Refusal::Annulled)?;
            refuse_if(kind == NORMAL && self.reminder >> own & 1 == 1, Refusal::Reminder)?;
            refuse_if(self.link == 0, Refusal::LinkDown)?;
            refuse_if(self.orientation[own] == NONE, Refusal::Orientation)?;
            if self.orientation[own] == IN {
                // What else a free line needs holds here: link is up, and own
                // has no exit route.
                refuse_if(self.occupied != 0 || self.count > 0, Refusal::TrackNotFree)?;
                refuse_if(self.exit[own ^ 1] != 0, Refusal::OtherExitRoute)?;
                self.orient(own);
            }
        }
        self.exit[own] = kind;
        // "An accepted exit route clears both."
        self.mark = 0;
        self.count = 0;
        Ok(())
    }

    fn occupy(&mut self, line: &Line, section: u8) -> Applied {
        let bit = section_bit(section);
        refuse_if(self.occupied & bit != 0, Refusal::AlreadySo)?;
        let owner = line.owner(section);
        let is_first = section == line.first_section(owner);
        let was_free = self.line_is_free();
        if !self.is_expected(line, section, owner) {
            // "A mark is set when a section becomes occupied, unexpected by
            // 01, while neither station has an exit route."
            if !self.has_exit_route() {
                self.mark = 1;
            }
            if !(is_first && self.annulment[owner] == AFBLE) {
                self.annulment[owner] = NONE;
            }
        }
        if is_first && self.orientation[owner] == IN && was_free {
            self.orient(owner);
        }
        self.occupied |= bit;
        self.pending = 0;
        // "A new occupation sets the count to 0 and keeps the mark."
        self.count = 0;
        Ok(())
    }

    /// "When the last section clears with that mark set and no exit route set,
    /// a count of 10 starts."
    fn free(&mut self, section: u8) -> Applied {
        let bit = section_bit(section);
        refuse_if(self.occupied & bit == 0, Refusal::AlreadySo)?;
        self.occupied &= !bit;
        if self.occupied == 0 && self.mark == 1 && !self.has_exit_route() {
            self.count = TEN_SECONDS;
        }
        Ok(())
    }

    /// "Each second lowers it; when that brings it to 0 the mark goes; with no
    /// count running a second changes nothing."
    fn pass_second(&mut self) {
        if self.count > 0 {
            self.count -= 1;
            if self.count == 0 {
                self.mark = 0;
            }
        }
    }

    /// A section that becomes occupied is expected "if s's area has a
    /// direction and either k is the section where trains enter the line in
    /// that direction and the station there has an exit route, or the section
    /// before k in that direction is occupied; across the frontier that
    /// counts only with link up".
    fn is_expected(&self, line: &Line, section: u8, owner: usize) -> bool {
        let direction = self.area_direction(owner);
        if direction == NONE {
            return false;
        }
        // Trains run from the owner when its direction is out, from its
        // neighbour when it is in.
        let from = if direction == OUT { owner } else { owner ^ 1 };
        if section == line.first_section(from) {
            return self.exit[from] != 0;
        }
        let before = if from == A { section - 1 } else { section + 1 };
        self.occupied & section_bit(before) != 0 && (self.link == 1 || line.owner(before) == owner)
    }

    /// The set that holds the signal, and the signal's bit.
    #[inline]
    fn held(&mut self, signal: u8) -> (&mut u16, u16) {
        let bit = section_bit(signal & !TOWARDS_A);
        if signal < TOWARDS_A { (&mut self.held_towards_b, bit) } else { (&mut self.held_towards_a, bit) }
    }
}

/// The pending code of a station.
#[inline]
fn asked_by(station: usize) -> u8 {
    station as u8 + 1
}

/// Bit k-1 for section k, 1 to 16.
#[inline]
fn section_bit(section: u8) -> u16 {
    1 << (section.wrapping_sub(1) & 15)
}

#[inline]
fn clear(stations: &mut u8, own: usize) -> Applied {
    refuse_if(*stations >> own & 1 == 0, Refusal::AlreadySo)?;
    *stations &= !(1 << own);
    Ok(())
}
