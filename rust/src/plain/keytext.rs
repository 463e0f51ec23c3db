//! What the key program prints: "one line per sequence: places separated by
//! one space, "-" for the empty one; then "total" and the count. A refusal
//! prints "refused" and its number only."

use std::fmt::Write;

use super::key::{SLOT, START, key};
use super::{Question, Refusal};

/// All slots of a question's key.
pub fn whole_key(question: &Question) -> Vec<u8> {
    let mut slots = vec![0; 64 * SLOT];
    let mut used = 0;
    let mut after = START;
    loop {
        let written = key(question, &after, &mut slots[used..]).expect("a place of the key, and room");
        used += written.count * SLOT;
        if !written.more {
            slots.truncate(used);
            return slots;
        }
        after.copy_from_slice(&slots[used - SLOT..used]);
        slots.resize(2 * slots.len(), 0);
    }
}

/// One line per slot, then the total.
pub fn slots_text(slots: &[u8]) -> String {
    let mut text = String::new();
    let (slots, _) = slots.as_chunks::<SLOT>();
    for [length, places @ ..] in slots {
        if *length == 0 {
            text.push('-');
        }
        for (index, place) in places[..usize::from(*length)].iter().enumerate() {
            let space = if index == 0 { "" } else { " " };
            let _ = write!(text, "{space}{place}");
        }
        text.push('\n');
    }
    let _ = writeln!(text, "total {}", slots.len());
    text
}

pub fn refused_text(refusal: u8) -> String {
    format!("refused {refusal}\n")
}

pub fn key_text(bytes: &[u8]) -> String {
    match Question::read(bytes) {
        Ok(question) => slots_text(&whole_key(&question)),
        Err(refusal) => refused_text(refusal as u8),
    }
}

impl From<Refusal> for u8 {
    fn from(refusal: Refusal) -> u8 {
        refusal as u8
    }
}
