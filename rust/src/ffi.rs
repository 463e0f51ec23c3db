//! The proved library behind a safe wrapper. It tests nothing away: every
//! function takes any input, so every slice is passed as it is given, empty
//! and short ones too.

use crate::cases::Case;
use crate::interface::Interface;
use crate::with_the_calls;

/// The library libfolvkin.a.
pub struct Library;

// Nothing checks the declarations against the library: names and shapes are
// those of include/folvkin.h. A slice passes as pointer and then length.
//
// SAFETY, for every call: the pointer and length of a slice are those of a
// live borrow, shared where the library reads and exclusive where it writes;
// the library keeps no pointer after the call and promises, for all inputs, to
// touch nothing else.
macro_rules! linked {
    ($(
        $(#[$says:meta])*
        $kind:ident $name:ident $word:literal $symbol:ident
            ($($number:ident: $type:ty),*)
            ($($read:ident $read_length:ident),*)
            ($($room:ident $room_length:ident)?) -> $returned:ty;
    )*) => {
        unsafe extern "C" {
            $(fn $symbol(
                $($number: $type,)*
                $($read: *const u8, $read_length: usize,)*
                $($room: *mut u8, $room_length: usize)?
            ) -> $returned;)*
        }

        impl Interface for Library {
            $(#[inline]
            fn $name($($number: $type,)* $($read: &[u8],)* $($room: &mut [u8])?) -> $returned {
                unsafe {
                    $symbol(
                        $($number,)*
                        $($read.as_ptr(), $read.len(),)*
                        $($room.as_mut_ptr(), $room.len())?
                    )
                }
            })*
        }
    };
}

with_the_calls!(linked);

/// The library's answer to a case.
pub fn library(case: &Case, room: &mut [u8]) -> u64 {
    case.call::<Library>(case.read, room)
}
