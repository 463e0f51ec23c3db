//! "A plan has n sections, 2 to 16, numbered from A, and a frontier b, 1 to
//! n-1. Sections 1..b are A's area, the others B's." It names the edition of
//! the rules that it is for.

use super::Refusal;

/// Station A; also its index in a situation's pairs.
pub const A: usize = 0;
/// Station B.
pub const B: usize = 1;

/// Added to a section's number to name its signal towards A.
pub const TOWARDS_A: u8 = 128;

/// "Record LC is LB with one byte more, always 1, for the 2012 rules; LB means
/// 2024."
#[derive(Clone, Copy, Debug, PartialEq, Eq)]
pub enum Edition {
    Of2024,
    Of2012,
}

impl Edition {
    pub const ALL: [Edition; 2] = [Edition::Of2024, Edition::Of2012];

    pub fn other(self) -> Edition {
        match self {
            Edition::Of2024 => Edition::Of2012,
            Edition::Of2012 => Edition::Of2024,
        }
    }
}

/// A plan as it stands in its record, in range or not.
#[derive(Clone, Copy, Debug, PartialEq, Eq)]
pub struct Plan {
    pub edition: Edition,
    pub sections: u8,
    pub frontier: u8,
}

impl Plan {
    #[inline]
    pub fn new(edition: Edition, sections: u8, frontier: u8) -> Plan {
        Plan { edition, sections, frontier }
    }
}

/// A plan that has been accepted.
#[derive(Clone, Copy, Debug, PartialEq, Eq)]
pub struct Line {
    plan: Plan,
    /// The sections of A and of B.
    areas: [u16; 2],
}

impl Line {
    #[inline]
    pub fn new(plan: Plan) -> Result<Line, Refusal> {
        let Plan { sections, frontier, .. } = plan;
        if !(2..=16).contains(&sections) || frontier < 1 || frontier >= sections {
            return Err(Refusal::Plan);
        }
        let all = (!0u16) >> (16 - sections);
        let area_a = (!0u16) >> (16 - frontier);
        Ok(Line { plan, areas: [area_a, all & !area_a] })
    }

    #[inline]
    pub fn plan(&self) -> Plan {
        self.plan
    }

    #[inline]
    pub fn edition(&self) -> Edition {
        self.plan.edition
    }

    /// The same line by the rules of an edition.
    pub fn under(self, edition: Edition) -> Line {
        Line { plan: Plan { edition, ..self.plan }, ..self }
    }

    #[inline]
    pub fn sections(&self) -> u8 {
        self.plan.sections
    }

    #[inline]
    pub fn frontier(&self) -> u8 {
        self.plan.frontier
    }

    /// All sections.
    #[inline]
    pub fn all(&self) -> u16 {
        self.areas[A] | self.areas[B]
    }

    /// The sections of a station's area.
    #[inline]
    pub fn area(&self, station: usize) -> u16 {
        self.areas[station]
    }

    /// The section next to B, as a set: B's first one.
    #[inline]
    pub fn last(&self) -> u16 {
        1 << (self.sections() - 1)
    }

    /// "Station A's first section (1AD) is 1, B's is n."
    #[inline]
    pub fn first_section(&self, station: usize) -> u8 {
        if station == A { 1 } else { self.sections() }
    }

    /// The station whose area the section is in.
    #[inline]
    pub fn owner(&self, section: u8) -> usize {
        if section <= self.frontier() { A } else { B }
    }

    #[inline]
    pub fn is_section(&self, section: u8) -> bool {
        section >= 1 && section <= self.sections()
    }

    /// A signal is k or 128+k of a section k.
    #[inline]
    pub fn is_signal(&self, signal: u8) -> bool {
        self.is_section(signal & !TOWARDS_A)
    }

    /// "Signals 1 and 128+n are the exit signals of A and B; the rest are
    /// block signals."
    #[inline]
    pub fn is_block_signal(&self, signal: u8) -> bool {
        self.is_signal(signal) && signal != 1 && signal != TOWARDS_A + self.sections()
    }
}
