//! Stands in for the proved library: the plain implementation itself, compiled
//! apart, behind the names of include/folvkin.h. With it the ratios tell how
//! far from 1.00 the measurement alone can lead.

use folvkin_stub::interface::{Interface, Plain};
use folvkin_stub::with_the_calls;
use std::slice::{from_raw_parts, from_raw_parts_mut};

// SAFETY, for every call: include/folvkin.h asks the caller for pointers to as
// many bytes as the lengths tell, and for rooms that overlap nothing else.
macro_rules! exported {
    ($(
        $(#[$says:meta])*
        $kind:ident $name:ident $word:literal $symbol:ident
            ($($number:ident: $type:ty),*)
            ($($read:ident $read_length:ident),*)
            ($($room:ident $room_length:ident)?) -> $returned:ty;
    )*) => {
        $(#[unsafe(no_mangle)]
        unsafe extern "C" fn $symbol(
            $($number: $type,)*
            $($read: *const u8, $read_length: usize,)*
            $($room: *mut u8, $room_length: usize)?
        ) -> $returned {
            $(let $read = unsafe { from_raw_parts($read, $read_length) };)*
            $(let $room = unsafe { from_raw_parts_mut($room, $room_length) };)?
            Plain::$name($($number,)* $($read,)* $($room)?)
        })*
    };
}

with_the_calls!(exported);
