//! The library on a processor that it is not compiled for: the bridge program
//! makes the calls, under the emulator of the Rattle kit. Cases go to it in
//! batches, see bridge/bridge.c.

use std::cell::RefCell;
use std::io::{self, Read, Write};
use std::process::{Child, ChildStdin, ChildStdout, Command, Stdio};

use crate::cases::{Case, Outcome};
use crate::lent::Placed;

pub struct Bridge {
    /// Ends when its standard input is closed.
    _child: Child,
    input: ChildStdin,
    output: ChildStdout,
    /// The batch that is being filled, after four bytes for its length.
    batch: Vec<u8>,
    cases: usize,
}

impl Bridge {
    /// How many bytes a batch may have, with room for one large case more.
    pub const BATCH: usize = 1 << 20;

    pub fn start() -> io::Result<Bridge> {
        let mut child = Command::new(env!("FOLVKIN_EMULATOR"))
            .arg(env!("FOLVKIN_LOADER"))
            .args(["--library-path", env!("FOLVKIN_LOADED"), env!("FOLVKIN_BRIDGE")])
            .stdin(Stdio::piped())
            .stdout(Stdio::piped())
            .spawn()?;
        let input = child.stdin.take().expect("piped");
        let output = child.stdout.take().expect("piped");
        Ok(Bridge { _child: child, input, output, batch: vec![0; 4], cases: 0 })
    }

    /// The slices that a case reads are placed first, then its room.
    pub fn push(&mut self, case: &Case, placed: [Placed; 4]) {
        self.batch.push(case.kind as u8);
        self.batch.extend(placed.map(|placed| match placed {
            Placed::AtStart => 0,
            Placed::AtEnd => 255,
            Placed::From(start) => start.clamp(1, 254) as u8,
        }));
        let [first, second, third] = case.read;
        let slices = [first, second, third, case.room];
        for number in case.numbers.into_iter().chain(slices.map(|slice| slice.len() as u32)) {
            self.batch.extend(number.to_le_bytes());
        }
        for slice in slices {
            self.batch.extend_from_slice(slice);
        }
        self.cases += 1;
    }

    pub fn is_full(&self) -> bool {
        self.batch.len() >= Bridge::BATCH
    }

    /// Has the batch run; the outcomes come in the order of the cases.
    pub fn flush(&mut self) -> io::Result<Vec<Outcome>> {
        let length = (self.batch.len() - 4) as u32;
        self.batch[..4].copy_from_slice(&length.to_le_bytes());
        self.input.write_all(&self.batch)?;
        self.input.flush()?;
        self.batch.truncate(4);
        let mut length = [0; 4];
        self.output.read_exact(&mut length)?;
        let mut reply = vec![0; u32::from_le_bytes(length) as usize];
        self.output.read_exact(&mut reply)?;
        let mut rest = &reply[..];
        let mut outcomes = Vec::with_capacity(self.cases);
        while let Some((head, after)) = rest.split_first_chunk::<16>() {
            let word = |at: usize| u32::from_le_bytes([head[at], head[at + 1], head[at + 2], head[at + 3]]);
            let (room, after) = after.split_at(word(12) as usize);
            rest = after;
            outcomes.push(Outcome {
                returned: u64::from(word(0)) | u64::from(word(4)) << 32,
                guarded: word(8) & 1 == 0,
                read_only: word(8) & 2 == 0,
                room: room.to_vec(),
            });
        }
        assert_eq!(outcomes.len(), self.cases, "one outcome for each case");
        self.cases = 0;
        Ok(outcomes)
    }
}

thread_local! {
    static BRIDGE: RefCell<Bridge> = RefCell::new(Bridge::start().expect("the bridge starts"));
}

/// The library's answer to a case, one call at a time.
pub fn library(case: &Case, room: &mut [u8]) -> u64 {
    BRIDGE.with_borrow_mut(|bridge| {
        bridge.push(case, [Placed::AtEnd; 4]);
        let outcomes = bridge.flush().expect("the bridge answers");
        room.copy_from_slice(&outcomes[0].room);
        outcomes[0].returned
    })
}
