//! The numbers that calls return, put together from their fields and read back
//! into them. Reading takes any number, also one that no call should return.

/// Of `folvkin_event`: refusal + 2^8 name + 2^16 length.
#[derive(Clone, Copy, Debug, Default, PartialEq, Eq)]
pub struct Event {
    pub refusal: u8,
    /// Whom or what the refusal names: a station by its argument (9), a
    /// section by its number (13, or 0 where only the count runs), else 0.
    pub name: u8,
    /// How many bytes the situation after takes.
    pub length: usize,
}

impl From<Event> for u64 {
    #[inline]
    fn from(told: Event) -> u64 {
        u64::from(told.refusal) | u64::from(told.name) << 8 | (told.length as u64) << 16
    }
}

impl From<u64> for Event {
    #[inline]
    fn from(number: u64) -> Event {
        Event { refusal: number as u8, name: (number >> 8) as u8, length: (number >> 16) as usize }
    }
}

/// Of `folvkin_reading`: refusal + 2^8 value.
#[derive(Clone, Copy, Debug, Default, PartialEq, Eq)]
pub struct Reading {
    pub refusal: u8,
    pub value: u32,
}

impl From<Reading> for u32 {
    #[inline]
    fn from(told: Reading) -> u32 {
        u32::from(told.refusal) | told.value << 8
    }
}

impl From<u32> for Reading {
    #[inline]
    fn from(number: u32) -> Reading {
        Reading { refusal: number as u8, value: number >> 8 }
    }
}

/// Of `folvkin_key`: refusal + 2^8 more + 2^16 count.
#[derive(Clone, Copy, Debug, Default, PartialEq, Eq)]
pub struct Key {
    pub refusal: u8,
    /// 1 if further slots remain.
    pub more: u8,
    /// How many slots were written.
    pub count: usize,
}

impl From<Key> for u64 {
    #[inline]
    fn from(told: Key) -> u64 {
        u64::from(told.refusal) | u64::from(told.more) << 8 | (told.count as u64) << 16
    }
}

impl From<u64> for Key {
    #[inline]
    fn from(number: u64) -> Key {
        Key { refusal: number as u8, more: (number >> 8) as u8, count: (number >> 16) as usize }
    }
}

/// Of `folvkin_run`: refusal + 2^8 place + 2^16 event's refusal + 2^24 holds +
/// 2^32 name.
#[derive(Clone, Copy, Debug, Default, PartialEq, Eq)]
pub struct Run {
    pub refusal: u8,
    /// The refused event's place within the slot, from 1.
    pub place: u8,
    pub event_refusal: u8,
    /// 1 if no event is refused and all readings hold.
    pub holds: u8,
    /// Whom or what the event's refusal names, as in [`Event`].
    pub name: u32,
}

impl From<Run> for u64 {
    #[inline]
    fn from(told: Run) -> u64 {
        let low = u32::from_le_bytes([told.refusal, told.place, told.event_refusal, told.holds]);
        u64::from(low) | u64::from(told.name) << 32
    }
}

impl From<u64> for Run {
    #[inline]
    fn from(number: u64) -> Run {
        let [refusal, place, event_refusal, holds] = (number as u32).to_le_bytes();
        Run { refusal, place, event_refusal, holds, name: (number >> 32) as u32 }
    }
}
