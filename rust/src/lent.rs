//! Memory to lend to a call, with guards around it. Before and after the lent
//! bytes stand guard bytes of a known pattern; on Linux the memory also lies
//! between two pages that may not be touched, and a slice that is placed at an
//! end ends the program when a call reads or writes past it.

/// How many guard bytes are looked at on each side after every call.
const LOOKED_AT: usize = 64;

#[derive(Clone, Copy, Debug)]
pub enum Placed {
    /// Flush with the end of the memory.
    AtEnd,
    /// Flush with its start.
    AtStart,
    /// This many bytes from the start.
    From(usize),
}

pub struct Lent {
    memory: &'static mut [u8],
    start: usize,
    length: usize,
}

fn guard(at: usize) -> u8 {
    (at.wrapping_mul(167) >> 1) as u8 ^ 0x5a
}

impl Lent {
    /// Memory for at least `most` bytes. It is never given back.
    pub fn new(most: usize) -> Lent {
        let memory = pages::allocate(most + 4 * LOOKED_AT);
        for (at, byte) in memory.iter_mut().enumerate() {
            *byte = guard(at);
        }
        Lent { memory, start: 0, length: 0 }
    }

    /// Lends a copy of the bytes. What was lent before becomes guard again.
    pub fn lend(&mut self, bytes: &[u8], placed: Placed) -> &mut [u8] {
        for at in self.start..self.start + self.length {
            self.memory[at] = guard(at);
        }
        let last = self.memory.len() - bytes.len();
        self.start = match placed {
            Placed::AtEnd => last,
            Placed::AtStart => 0,
            Placed::From(start) => start.min(last),
        };
        self.length = bytes.len();
        self.bytes_mut().copy_from_slice(bytes);
        self.bytes_mut()
    }

    pub fn bytes(&self) -> &[u8] {
        &self.memory[self.start..self.start + self.length]
    }

    pub fn bytes_mut(&mut self) -> &mut [u8] {
        &mut self.memory[self.start..self.start + self.length]
    }

    /// Whether the guard bytes next to the lent ones are as they were.
    pub fn is_guarded(&self) -> bool {
        let end = self.start + self.length;
        self.are_guards(self.start.saturating_sub(LOOKED_AT), self.start)
            && self.are_guards(end, self.memory.len().min(end + LOOKED_AT))
    }

    /// The same of all guard bytes.
    pub fn is_wholly_guarded(&self) -> bool {
        self.are_guards(0, self.start) && self.are_guards(self.start + self.length, self.memory.len())
    }

    fn are_guards(&self, from: usize, to: usize) -> bool {
        (from..to).all(|at| self.memory[at] == guard(at))
    }
}

#[cfg(target_os = "linux")]
mod pages {
    use std::ffi::{c_int, c_long, c_void};

    const PAGE: usize = 4096;

    unsafe extern "C" {
        fn mmap(
            address: *mut c_void,
            length: usize,
            protection: c_int,
            flags: c_int,
            file: c_int,
            offset: c_long,
        ) -> *mut c_void;
        fn mprotect(address: *mut c_void, length: usize, protection: c_int) -> c_int;
    }

    const NO_ACCESS: c_int = 0;
    const READ_AND_WRITE: c_int = 1 | 2;
    const PRIVATE_AND_ANONYMOUS: c_int = 0x02 | 0x20;

    /// Whole pages between two that may not be touched.
    pub fn allocate(least: usize) -> &'static mut [u8] {
        let length = least.div_ceil(PAGE) * PAGE;
        // SAFETY: new memory of this length, made readable and writable but
        // for its first and last page; it is never unmapped and has this one
        // owner.
        unsafe {
            let whole =
                mmap(std::ptr::null_mut(), length + 2 * PAGE, NO_ACCESS, PRIVATE_AND_ANONYMOUS, -1, 0);
            assert!(whole as isize != -1, "no memory");
            let inner = whole.cast::<u8>().add(PAGE);
            assert!(mprotect(inner.cast(), length, READ_AND_WRITE) == 0, "no memory");
            std::slice::from_raw_parts_mut(inner, length)
        }
    }
}

#[cfg(not(target_os = "linux"))]
mod pages {
    pub fn allocate(least: usize) -> &'static mut [u8] {
        Vec::leak(vec![0; least])
    }
}
