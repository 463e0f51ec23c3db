//! Aspects of all signals at once: a set of the signals that are not red and
//! one of those that are green, for each direction.

use super::line::{A, B, TOWARDS_A};
use super::situation::{IN, OUT};
use super::{Line, Situation};

pub const RED: u8 = 0;
pub const YELLOW: u8 = 1;
pub const GREEN: u8 = 2;

/// One direction's signals, bit k-1 for the signal of section k.
#[derive(Clone, Copy, Debug, PartialEq, Eq)]
pub struct Direction {
    not_red: u16,
    green: u16,
}

impl Direction {
    #[inline]
    pub fn aspect(&self, section: u8) -> u8 {
        let bit = section.wrapping_sub(1) & 15;
        (self.not_red >> bit & 1) as u8 + (self.green >> bit & 1) as u8
    }
}

#[derive(Clone, Copy, Debug, PartialEq, Eq)]
pub struct Aspects {
    pub towards_b: Direction,
    pub towards_a: Direction,
}

impl Aspects {
    pub fn of(line: &Line, situation: &Situation) -> Aspects {
        Aspects { towards_b: towards_b(line, situation), towards_a: towards_a(line, situation) }
    }

    /// The aspects of 1..n and then of 129..128+n, into 2n bytes.
    pub fn write(&self, line: &Line, room: &mut [u8]) {
        let (first, second) = room.split_at_mut(usize::from(line.sections()));
        for (section, aspect) in (1..).zip(first) {
            *aspect = self.towards_b.aspect(section);
        }
        for (section, aspect) in (1..).zip(second) {
            *aspect = self.towards_a.aspect(section);
        }
    }
}

/// The aspect of one signal of the line.
#[inline]
pub fn aspect(line: &Line, situation: &Situation, signal: u8) -> u8 {
    if signal < TOWARDS_A {
        towards_b(line, situation).aspect(signal)
    } else {
        towards_a(line, situation).aspect(signal - TOWARDS_A)
    }
}

/// The signals that are not red where trains run from `from`, whose exit
/// signal is `exit_signal`.
#[inline]
fn not_red(line: &Line, s: &Situation, from: usize, exit_signal: u16, held: u16) -> u16 {
    let to = from ^ 1;
    let mut signals = 0;
    if s.area_direction(from) == OUT {
        // BSLG does not touch the exit signal, and only it needs the route.
        if s.bslg >> from & 1 == 0 {
            signals = line.area(from) & !exit_signal;
        }
        if s.exit[from] != 0 {
            signals |= exit_signal;
        }
    }
    if s.area_direction(to) == IN && s.bslg >> to & 1 == 0 {
        signals |= line.area(to);
    }
    signals & !(s.occupied | held)
}

#[inline]
fn towards_b(line: &Line, s: &Situation) -> Direction {
    let not_red = not_red(line, s, A, 1, s.held_towards_b);
    // The next of k is k+1; after n comes B's entry signal.
    let mut next = not_red >> 1;
    if s.entry[B] != 0 {
        next |= line.last();
    }
    // "A next signal across the frontier is read as red when link is down":
    // that is the next of b.
    if s.link == 0 {
        next &= !(1 << (line.frontier() - 1));
    }
    Direction { not_red, green: not_red & next }
}

#[inline]
fn towards_a(line: &Line, s: &Situation) -> Direction {
    let not_red = not_red(line, s, B, line.last(), s.held_towards_a);
    // The next of k is k-1; after 1 comes A's entry signal.
    let mut next = not_red << 1;
    if s.entry[A] != 0 {
        next |= 1;
    }
    // Across the frontier: the next of b+1.
    if s.link == 0 {
        next &= !(1 << line.frontier());
    }
    Direction { not_red, green: not_red & next }
}
