//! A question: five records, each after its two letters, in one byte form.

use super::{Event, Line, Plan, Reading, Refusal, Situation, records, situation};

pub const MOST_EVENTS: usize = 12;
pub const MOST_READINGS: usize = 6;
pub const MOST_LENGTH: u8 = 5;

/// A question as it stands in its bytes, well formed and no more.
#[derive(Clone, Copy, Debug)]
pub struct Parts<'a> {
    pub plan: Plan,
    pub situation: [u8; situation::LENGTH],
    pub events: &'a [[u8; 2]],
    pub readings: &'a [[u8; 3]],
    pub length: u8,
}

/// A question that has been accepted. Past a count there are zeros.
#[derive(Clone, Copy, Debug, PartialEq, Eq)]
pub struct Question {
    line: Line,
    situation: Situation,
    event_count: usize,
    events: [Event; MOST_EVENTS],
    reading_count: usize,
    readings: [Reading; MOST_READINGS],
    length: u8,
}

/// Whether an event is listed twice, of events in range: codes up to 23,
/// arguments up to 16 or from 129 to 144.
#[inline]
fn lists_twice(events: &[[u8; 2]]) -> bool {
    // For each code the arguments seen, one bit each.
    let mut seen = [0u64; 32];
    events.iter().any(|&[code, argument]| {
        let bit = 1 << (argument & 31 | argument >> 7 << 5);
        let arguments = &mut seen[usize::from(code & 31)];
        let twice = *arguments & bit != 0;
        *arguments |= bit;
        twice
    })
}

impl<'a> Parts<'a> {
    /// 20: "a wrong mark, bytes missing or left over, an EV or RD count out of
    /// range", SJ with both zero, another last byte in LC.
    #[inline]
    pub fn split(bytes: &'a [u8]) -> Result<Parts<'a>, Refusal> {
        let rest = &mut { bytes };
        let plan = records::plan(rest)?;
        let situation = records::situation(rest)?;
        records::letters(rest, b"EV")?;
        let &[count] = records::take(rest)?;
        if !(1..=MOST_EVENTS).contains(&usize::from(count)) {
            return Err(Refusal::Form);
        }
        let events = records::items(rest, usize::from(count))?;
        records::letters(rest, b"RD")?;
        let &[count] = records::take(rest)?;
        if usize::from(count) > MOST_READINGS {
            return Err(Refusal::Form);
        }
        let readings = records::items(rest, usize::from(count))?;
        records::letters(rest, b"LN")?;
        let &[length] = records::take(rest)?;
        records::end(rest)?;
        Ok(Parts { plan, situation, events, readings, length })
    }

    /// The question, or its refusal in the order 20 (counts), 1, 2, 3, 4, 21.
    #[inline]
    pub fn accept(&self) -> Result<Question, Refusal> {
        if !(1..=MOST_EVENTS).contains(&self.events.len()) || self.readings.len() > MOST_READINGS {
            return Err(Refusal::Form);
        }
        let line = Line::new(self.plan)?;
        let situation = Situation::read(&line, &self.situation)?;
        let mut events = [Event { code: 0, argument: 0 }; MOST_EVENTS];
        for (event, &[code, argument]) in events.iter_mut().zip(self.events) {
            *event = Event { code, argument };
            event.check(&line)?;
        }
        if self.length > MOST_LENGTH {
            return Err(Refusal::Listing);
        }
        if lists_twice(self.events) {
            return Err(Refusal::Listing);
        }
        let mut readings = [Reading { kind: 0, argument: 0, value: 0 }; MOST_READINGS];
        for (reading, &[kind, argument, value]) in readings.iter_mut().zip(self.readings) {
            *reading = Reading { kind, argument, value };
            reading.check(&line)?;
        }
        Ok(Question {
            line,
            situation,
            event_count: self.events.len(),
            events,
            reading_count: self.readings.len(),
            readings,
            length: self.length,
        })
    }

    /// Writes the question if it is accepted and fits: its length. Bytes after
    /// it keep their values; a refusal writes nothing.
    pub fn write(&self, room: &mut [u8]) -> Result<usize, Refusal> {
        self.accept()?;
        let length = self.byte_length();
        let room = room.get_mut(..length).ok_or(Refusal::Room)?;
        self.write_unchecked(room);
        Ok(length)
    }

    /// How many bytes the question takes.
    pub fn byte_length(&self) -> usize {
        let plan = records::plan_length(self.plan.edition);
        let situation = records::situation_length(&self.situation);
        plan + situation + 3 + 2 * self.events.len() + 3 + 3 * self.readings.len() + 3
    }

    /// Writes the byte form of any parts, accepted or not, into just enough
    /// room. (For making damaged questions.)
    pub fn write_unchecked(&self, room: &mut [u8]) {
        let mut at = 0;
        let mut put = |bytes: &[u8]| {
            room[at..at + bytes.len()].copy_from_slice(bytes);
            at += bytes.len();
        };
        put(&records::plan_record(self.plan));
        put(&records::situation_record(&self.situation));
        put(b"EV");
        put(&[self.events.len() as u8]);
        put(self.events.as_flattened());
        put(b"RD");
        put(&[self.readings.len() as u8]);
        put(self.readings.as_flattened());
        put(b"LN");
        put(&[self.length]);
    }
}

impl Question {
    #[inline]
    pub fn read(bytes: &[u8]) -> Result<Question, Refusal> {
        Parts::split(bytes)?.accept()
    }

    /// Writes the one byte form into lent room, as [`Parts::write`].
    pub fn write(&self, room: &mut [u8]) -> Result<usize, Refusal> {
        let mut events = [[0; 2]; MOST_EVENTS];
        for (bytes, event) in events.iter_mut().zip(self.events()) {
            *bytes = event.to_bytes();
        }
        let mut readings = [[0; 3]; MOST_READINGS];
        for (bytes, reading) in readings.iter_mut().zip(self.readings()) {
            *bytes = [reading.kind, reading.argument, reading.value];
        }
        Parts {
            plan: self.line.plan(),
            situation: self.situation.to_bytes(),
            events: &events[..self.event_count],
            readings: &readings[..self.reading_count],
            length: self.length,
        }
        .write(room)
    }

    #[inline]
    pub fn line(&self) -> &Line {
        &self.line
    }

    #[inline]
    pub fn situation(&self) -> &Situation {
        &self.situation
    }

    #[inline]
    pub fn events(&self) -> &[Event] {
        &self.events[..self.event_count]
    }

    #[inline]
    pub fn readings(&self) -> &[Reading] {
        &self.readings[..self.reading_count]
    }

    #[inline]
    pub fn length(&self) -> usize {
        usize::from(self.length)
    }

    /// Whether all readings hold in a situation.
    #[inline]
    pub fn readings_hold(&self, situation: &Situation) -> bool {
        self.readings().iter().all(|reading| reading.holds(&self.line, situation))
    }

    /// The places of a slot: "a slot is six bytes: length, then places 1..12
    /// in EV, zero filled", with length and places within the question.
    #[inline]
    pub fn places<'s>(&self, slot: &'s [u8]) -> Result<&'s [u8], Refusal> {
        let &[length, ref places @ ..] = slot.as_array::<6>().ok_or(Refusal::Slot)?;
        if length > self.length {
            return Err(Refusal::Slot);
        }
        let (used, filling) = places.split_at(usize::from(length));
        let is_place = |&place: &u8| (1..=self.event_count).contains(&usize::from(place));
        if used.iter().all(is_place) && filling.iter().all(|&zero| zero == 0) {
            Ok(used)
        } else {
            Err(Refusal::Slot)
        }
    }
}
