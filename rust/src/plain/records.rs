//! "A question is five records, each after its two letters as mark": what
//! reads them off the front of bytes. Plan and situation are lent to calls as
//! the records that they are in a question, so theirs are also read and
//! written alone.

use std::ops::Deref;

use super::situation::{LENGTH, SHORT_LENGTH};
use super::{Edition, Line, Plan, Refusal, Situation};

/// The length of record LB: its letters, n, b.
pub const LB: usize = 4;

/// The length of record LC: "LB with one byte more".
pub const LC: usize = LB + 1;

/// That byte: "always 1".
const LAST_OF_LC: u8 = 1;

/// The length of record SI: its letters and 19 bytes.
pub const SI: usize = 2 + SHORT_LENGTH;

/// The length of record SJ: two bytes more, the mark and the count.
pub const SJ: usize = 2 + LENGTH;

/// Takes `N` bytes off the front.
#[inline]
pub fn take<'a, const N: usize>(bytes: &mut &'a [u8]) -> Result<&'a [u8; N], Refusal> {
    let (taken, rest) = bytes.split_first_chunk::<N>().ok_or(Refusal::Form)?;
    *bytes = rest;
    Ok(taken)
}

/// Takes a record's two letters off the front.
#[inline]
pub fn letters(bytes: &mut &[u8], letters: &[u8; 2]) -> Result<(), Refusal> {
    if take::<2>(bytes)? == letters { Ok(()) } else { Err(Refusal::Form) }
}

/// Takes `count` items of `N` bytes each.
#[inline]
pub fn items<'a, const N: usize>(bytes: &mut &'a [u8], count: usize) -> Result<&'a [[u8; N]], Refusal> {
    let (taken, rest) = bytes.split_at_checked(count * N).ok_or(Refusal::Form)?;
    *bytes = rest;
    Ok(taken.as_chunks::<N>().0)
}

/// Nothing is left over.
#[inline]
pub fn end(bytes: &[u8]) -> Result<(), Refusal> {
    if bytes.is_empty() { Ok(()) } else { Err(Refusal::Form) }
}

/// "LB, n, b", or LC: n and b, whatever they are, but "20 for another last byte
/// in LC".
#[inline]
pub fn plan(bytes: &mut &[u8]) -> Result<Plan, Refusal> {
    match take::<2>(bytes)? {
        b"LB" => {
            let &[sections, frontier] = take(bytes)?;
            Ok(Plan::new(Edition::Of2024, sections, frontier))
        }
        b"LC" => {
            let &[sections, frontier, last] = take(bytes)?;
            if last != LAST_OF_LC {
                return Err(Refusal::Form);
            }
            Ok(Plan::new(Edition::Of2012, sections, frontier))
        }
        _ => Err(Refusal::Form),
    }
}

/// "SI, 19 bytes", or "SJ is SI with the mark and the count added": the
/// situation's bytes, whatever they are, but "20 for SJ with both zero".
#[inline]
pub fn situation(bytes: &mut &[u8]) -> Result<[u8; LENGTH], Refusal> {
    match take::<2>(bytes)? {
        b"SI" => {
            let mut body = [0; LENGTH];
            body[..SHORT_LENGTH].copy_from_slice(take::<SHORT_LENGTH>(bytes)?);
            Ok(body)
        }
        b"SJ" => {
            let &body = take(bytes)?;
            if is_short(&body) { Err(Refusal::Form) } else { Ok(body) }
        }
        _ => Err(Refusal::Form),
    }
}

/// "SI means both zero": mark and count.
#[inline]
fn is_short(body: &[u8; LENGTH]) -> bool {
    body[SHORT_LENGTH..] == [0, 0]
}

/// How long the record of a situation is.
#[inline]
pub fn situation_length(body: &[u8; LENGTH]) -> usize {
    if is_short(body) { SI } else { SJ }
}

/// Bytes that are exactly one record.
#[inline]
pub fn alone<'a, T>(
    mut bytes: &'a [u8],
    record: impl FnOnce(&mut &'a [u8]) -> Result<T, Refusal>,
) -> Result<T, Refusal> {
    let read = record(&mut bytes)?;
    end(bytes)?;
    Ok(read)
}

/// A record that may have fewer bytes than the longest of its kind.
#[derive(Clone, Copy, Debug, PartialEq, Eq)]
pub struct Record<const MOST: usize> {
    bytes: [u8; MOST],
    length: usize,
}

/// The record of a plan, LB or LC.
pub type PlanRecord = Record<LC>;

/// The record of a situation, SI or SJ.
pub type SituationRecord = Record<SJ>;

impl<const MOST: usize> Deref for Record<MOST> {
    type Target = [u8];

    #[inline]
    fn deref(&self) -> &[u8] {
        &self.bytes[..self.length]
    }
}

/// How long the record of a plan is.
#[inline]
pub fn plan_length(edition: Edition) -> usize {
    match edition {
        Edition::Of2024 => LB,
        Edition::Of2012 => LC,
    }
}

#[inline]
pub fn plan_record(plan: Plan) -> PlanRecord {
    let Plan { edition, sections, frontier } = plan;
    let (letter, last) = match edition {
        Edition::Of2024 => (b'B', 0),
        Edition::Of2012 => (b'C', LAST_OF_LC),
    };
    Record { bytes: [b'L', letter, sections, frontier, last], length: plan_length(edition) }
}

#[inline]
pub fn situation_record(body: &[u8; LENGTH]) -> SituationRecord {
    let mut bytes = [0; SJ];
    let length = write_situation(body, &mut bytes);
    Record { bytes, length }
}

/// Writes the record of a situation: its length. Bytes after it keep their
/// values.
#[inline]
pub fn write_situation(body: &[u8; LENGTH], room: &mut [u8]) -> usize {
    if is_short(body) {
        room[..2].copy_from_slice(b"SI");
        room[2..SI].copy_from_slice(&body[..SHORT_LENGTH]);
        SI
    } else {
        room[..SJ].copy_from_slice(&long_record(body));
        SJ
    }
}

/// The record SJ, also where both are zero.
#[inline]
pub fn long_record(body: &[u8; LENGTH]) -> [u8; SJ] {
    let mut record = [0; SJ];
    record[..2].copy_from_slice(b"SJ");
    record[2..].copy_from_slice(body);
    record
}

impl Line {
    #[inline]
    pub fn to_record(&self) -> PlanRecord {
        plan_record(self.plan())
    }
}

impl Situation {
    #[inline]
    pub fn to_record(&self) -> SituationRecord {
        situation_record(&self.to_bytes())
    }

    /// Its record as SJ, also where both are zero.
    #[inline]
    pub fn to_long_record(&self) -> [u8; SJ] {
        long_record(&self.to_bytes())
    }
}
