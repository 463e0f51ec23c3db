//! The situation, its bytes and when it is sound.

use super::line::{A, B};
use super::{Edition, Line, Refusal};

pub const NONE: u8 = 0;
/// Orientations and area directions.
pub const OUT: u8 = 1;
pub const IN: u8 = 2;
/// Annulments.
pub const AFBLI: u8 = 1;
pub const AFBLE: u8 = 2;
/// Exit routes.
pub const NORMAL: u8 = 1;
pub const SPECIAL: u8 = 2;

/// The length of record SI without its letters.
pub const SHORT_LENGTH: usize = 19;

/// The length of record SJ without its letters: "SI with the mark and the
/// count added, a byte each". A situation's bytes are these.
pub const LENGTH: usize = SHORT_LENGTH + 2;

/// What the count starts at.
pub const TEN_SECONDS: u8 = 10;

/// Pairs are indexed by station. `bilc`, `bslg` and `reminder` have bit 0 for
/// A and bit 1 for B.
#[derive(Clone, Copy, Debug, PartialEq, Eq)]
pub struct Situation {
    pub occupied: u16,
    pub held_towards_b: u16,
    pub held_towards_a: u16,
    pub link: u8,
    pub orientation: [u8; 2],
    pub annulment: [u8; 2],
    pub exit: [u8; 2],
    pub entry: [u8; 2],
    pub pending: u8,
    pub bilc: u8,
    pub bslg: u8,
    pub reminder: u8,
    /// 1 after a stray occupation.
    pub mark: u8,
    /// The seconds until the line is free again, 0 while none are counted.
    pub count: u8,
}

impl Situation {
    /// "The fresh one: link 1, all else 0."
    pub const FRESH: Situation = Situation {
        occupied: 0,
        held_towards_b: 0,
        held_towards_a: 0,
        link: 1,
        orientation: [NONE; 2],
        annulment: [NONE; 2],
        exit: [0; 2],
        entry: [0; 2],
        pending: 0,
        bilc: 0,
        bslg: 0,
        reminder: 0,
        mark: 0,
        count: 0,
    };

    /// The fields as they stand in the bytes, in range or not.
    #[inline]
    pub fn from_bytes(bytes: &[u8; LENGTH]) -> Situation {
        let s = bytes;
        Situation {
            link: s[0],
            orientation: [s[1], s[2]],
            annulment: [s[3], s[4]],
            exit: [s[5], s[6]],
            entry: [s[7], s[8]],
            pending: s[9],
            bilc: s[10],
            bslg: s[11],
            reminder: s[12],
            occupied: u16::from_le_bytes([s[13], s[14]]),
            held_towards_b: u16::from_le_bytes([s[15], s[16]]),
            held_towards_a: u16::from_le_bytes([s[17], s[18]]),
            mark: s[19],
            count: s[20],
        }
    }

    #[inline]
    pub fn to_bytes(&self) -> [u8; LENGTH] {
        let [o0, o1] = self.occupied.to_le_bytes();
        let [b0, b1] = self.held_towards_b.to_le_bytes();
        let [a0, a1] = self.held_towards_a.to_le_bytes();
        [
            self.link,
            self.orientation[A],
            self.orientation[B],
            self.annulment[A],
            self.annulment[B],
            self.exit[A],
            self.exit[B],
            self.entry[A],
            self.entry[B],
            self.pending,
            self.bilc,
            self.bslg,
            self.reminder,
            o0,
            o1,
            b0,
            b1,
            a0,
            a1,
            self.mark,
            self.count,
        ]
    }

    /// The situation in the bytes, if it is sound.
    #[inline]
    pub fn read(line: &Line, bytes: &[u8; LENGTH]) -> Result<Situation, Refusal> {
        let situation = Situation::from_bytes(bytes);
        if situation.is_sound(line) { Ok(situation) } else { Err(Refusal::Situation) }
    }

    /// "All codes are in range" and every set bit names a station, a section
    /// or a block signal.
    #[inline(always)]
    fn is_in_range(&self, line: &Line) -> bool {
        let within = |pair: [u8; 2], most: u8| pair[A] <= most && pair[B] <= most;
        let all = line.all();
        self.link <= 1
            && within(self.orientation, 2)
            && within(self.annulment, 2)
            && within(self.exit, 2)
            && within(self.entry, 1)
            && self.pending <= 2
            && (self.bilc | self.bslg | self.reminder) <= 3
            && self.occupied & !all == 0
            && self.held_towards_b & !(all & !1) == 0
            && self.held_towards_a & !(all & !line.last()) == 0
            && self.mark <= 1
            && self.count <= TEN_SECONDS
    }

    #[inline(always)]
    pub fn is_sound(&self, line: &Line) -> bool {
        if !self.is_in_range(line) {
            return false;
        }
        let orientations = match (self.orientation[A], self.orientation[B]) {
            // One out and one in, or both none: with link up or down.
            (OUT, IN) | (IN, OUT) | (NONE, NONE) => true,
            // With link down only "not both out and not both in".
            (a, b) => self.link == 0 && a != b,
        };
        let station = |s: usize| {
            let annulled = self.annulment[s] == NONE || self.orientation[s] == NONE;
            let route = match self.exit[s] {
                0 => true,
                kind => {
                    self.bilc >> s & 1 == 0
                        && self.orientation[s] != IN
                        && match kind {
                            NORMAL => self.annulment[s] == NONE,
                            _ => self.annulment[s] != AFBLI,
                        }
                }
            };
            annulled && route
        };
        let pending = match self.pending {
            0 => true,
            asker => {
                let asker = usize::from(asker - 1) & 1;
                self.link == 1 && self.annulment[asker] == NONE && self.orientation[asker] != OUT
            }
        };
        // "A count above 0 only with the mark set and no section occupied, and
        // a mark only with no exit route and either a section occupied or a
        // count above 0."
        let count = self.count == 0 || (self.mark == 1 && self.occupied == 0);
        let mark = self.mark == 0 || (!self.has_exit_route() && (self.occupied != 0 || self.count > 0));
        // "In that edition a situation with such a pair is not sound."
        let has_pair = |s: usize| self.excludes(line, s) && self.excluded_by(line, s).is_some();
        orientations && station(A) && station(B) && pending && count && mark && !has_pair(A) && !has_pair(B)
    }

    /// "Under 2012, AFBLI and AFBLE exclude BILC, BSLG and any BSLB in the
    /// station's own area": which of these is there, "11 BILC, 16 BSLG, 17
    /// BSLB, in that order".
    #[inline(always)]
    pub fn excluded_by(&self, line: &Line, station: usize) -> Option<Refusal> {
        if line.edition() != Edition::Of2012 {
            return None;
        }
        let held = self.held_towards_b | self.held_towards_a;
        if self.bilc >> station & 1 == 1 {
            Some(Refusal::Bilc)
        } else if self.bslg >> station & 1 == 1 {
            Some(Refusal::Bslg)
        } else if held & line.area(station) != 0 {
            Some(Refusal::Bslb)
        } else {
            None
        }
    }

    /// "Whichever comes first": under 2012 an annulled station excludes them
    /// in its turn.
    #[inline(always)]
    pub fn excludes(&self, line: &Line, station: usize) -> bool {
        line.edition() == Edition::Of2012 && self.annulment[station] != NONE
    }

    /// "The line is free when link is up, no section is occupied and neither
    /// station has an exit route"; while the count runs it is not.
    #[inline]
    pub fn line_is_free(&self) -> bool {
        self.link == 1 && self.occupied == 0 && !self.has_exit_route() && self.count == 0
    }

    #[inline]
    pub fn has_exit_route(&self) -> bool {
        self.exit[A] | self.exit[B] != 0
    }

    /// "A station's area direction is out under AFBLE, in under AFBLI, else
    /// its orientation."
    #[inline]
    pub fn area_direction(&self, station: usize) -> u8 {
        match self.annulment[station] {
            AFBLE => OUT,
            AFBLI => IN,
            _ => self.orientation[station],
        }
    }
}
