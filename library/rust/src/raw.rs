//! The archive's functions as C declares them, each behind one safe function. All `unsafe` of the crate is here.
//!
//! A slice crosses as a pointer and then a length. The functions have no duties beyond those of their types: they test
//! every number, write only to what is passed as `*mut`, and keep no pointer.

/// How many accesses a registration can hold.
pub const ACCESSES: usize = 192;

/// `bench_access` of `bench.h`.
#[repr(C)]
#[derive(Clone, Copy, Debug, PartialEq, Eq)]
pub struct Access {
    pub device: u32,
    pub number: u32,
}

/// `bench_registration` of `bench.h`.
#[repr(C)]
#[derive(Clone, Copy, Debug)]
pub struct Registration {
    pub registered: bool,
    pub words: u32,
    pub doubles: u32,
    pub entries: [Access; ACCESSES],
}

/// `bench_size` of `bench.h`.
#[repr(C)]
#[derive(Clone, Copy)]
pub struct Size {
    pub units: usize,
    pub status: u32,
}

/// `bench_value` of `bench.h`.
#[repr(C)]
#[derive(Clone, Copy)]
pub struct Value {
    pub status: u32,
    pub value: u32,
}

/// `bench_answer` of `bench.h`.
#[repr(C)]
#[derive(Clone, Copy)]
pub struct Answer {
    pub taken: usize,
    pub length: usize,
    pub place: usize,
    pub fault: u32,
    pub status: u32,
}

macro_rules! exports {
    ($unit:ty, $module:ident, $needed:ident, $read:ident, $set:ident, $take_frame:ident) => {
        pub mod $module {
            use super::{Answer, Registration, Size, Value};

            mod c {
                use super::super::{Answer, Registration, Size, Value};

                extern "C" {
                    pub fn $needed(extents: *const u32, extents_len: usize) -> Size;
                    pub fn $read(
                        units: *mut $unit,
                        units_len: usize,
                        extents: *const u32,
                        extents_len: usize,
                        device: u32,
                        number: u32,
                    ) -> Value;
                    pub fn $set(
                        units: *mut $unit,
                        units_len: usize,
                        extents: *const u32,
                        extents_len: usize,
                        device: u32,
                        number: u32,
                        value: u16,
                    ) -> u32;
                    pub fn $take_frame(
                        code: u32,
                        frame: *const u8,
                        frame_len: usize,
                        reply: *mut u8,
                        reply_len: usize,
                        units: *mut $unit,
                        units_len: usize,
                        extents: *const u32,
                        extents_len: usize,
                        write_flag: bool,
                        registration: *mut Registration,
                    ) -> Answer;
                }
            }

            pub fn needed(extents: &[u32]) -> Size {
                // SAFETY: the pointer and the length are those of one slice, which is borrowed for the call.
                unsafe { c::$needed(extents.as_ptr(), extents.len()) }
            }

            pub fn read(units: &mut [$unit], extents: &[u32], device: u32, number: u32) -> Value {
                // SAFETY: each pointer and length are those of one slice, borrowed for the call, the units alone.
                unsafe {
                    c::$read(
                        units.as_mut_ptr(),
                        units.len(),
                        extents.as_ptr(),
                        extents.len(),
                        device,
                        number,
                    )
                }
            }

            pub fn set(
                units: &mut [$unit],
                extents: &[u32],
                device: u32,
                number: u32,
                value: u16,
            ) -> u32 {
                // SAFETY: as in `read`; every bit pattern is a unit, so any that the call leaves is one.
                unsafe {
                    c::$set(
                        units.as_mut_ptr(),
                        units.len(),
                        extents.as_ptr(),
                        extents.len(),
                        device,
                        number,
                        value,
                    )
                }
            }

            pub fn take_frame(
                code: u32,
                frame: &[u8],
                reply: &mut [u8],
                units: &mut [$unit],
                extents: &[u32],
                write_flag: bool,
                registration: &mut Registration,
            ) -> Answer {
                // SAFETY: as in `set`; the registration is borrowed alone, and the call leaves 0 or 1 in its `bool`.
                unsafe {
                    c::$take_frame(
                        code,
                        frame.as_ptr(),
                        frame.len(),
                        reply.as_mut_ptr(),
                        reply.len(),
                        units.as_mut_ptr(),
                        units.len(),
                        extents.as_ptr(),
                        extents.len(),
                        write_flag,
                        registration,
                    )
                }
            }
        }
    };
}

exports!(
    u16,
    packed,
    bench_packed_needed,
    bench_packed_read,
    bench_packed_set,
    bench_packed_take_frame
);
exports!(
    u8,
    image,
    bench_image_needed,
    bench_image_read,
    bench_image_set,
    bench_image_take_frame
);
