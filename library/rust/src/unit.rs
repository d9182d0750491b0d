use crate::raw;

/// What storage is made of: 16-bit words for packed tables, bytes for an image.
pub trait Unit: sealed::Calls {}

impl Unit for u16 {}
impl Unit for u8 {}

/// The archive's functions over storage of one kind.
pub(crate) mod sealed {
    use super::raw;

    pub trait Calls: Copy + Sized {
        fn needed(extents: &[u32]) -> raw::Size;
        fn read(units: &mut [Self], extents: &[u32], device: u32, number: u32) -> raw::Value;
        fn set(units: &mut [Self], extents: &[u32], device: u32, number: u32, value: u16) -> u32;
        fn take_frame(
            code: u32,
            frame: &[u8],
            reply: &mut [u8],
            units: &mut [Self],
            extents: &[u32],
            write_flag: bool,
            registration: &mut raw::Registration,
        ) -> raw::Answer;
    }
}

macro_rules! calls {
    ($unit:ty, $exports:ident) => {
        impl sealed::Calls for $unit {
            fn needed(extents: &[u32]) -> raw::Size {
                raw::$exports::needed(extents)
            }

            fn read(units: &mut [Self], extents: &[u32], device: u32, number: u32) -> raw::Value {
                raw::$exports::read(units, extents, device, number)
            }

            fn set(
                units: &mut [Self],
                extents: &[u32],
                device: u32,
                number: u32,
                value: u16,
            ) -> u32 {
                raw::$exports::set(units, extents, device, number, value)
            }

            fn take_frame(
                code: u32,
                frame: &[u8],
                reply: &mut [u8],
                units: &mut [Self],
                extents: &[u32],
                write_flag: bool,
                registration: &mut raw::Registration,
            ) -> raw::Answer {
                raw::$exports::take_frame(
                    code,
                    frame,
                    reply,
                    units,
                    extents,
                    write_flag,
                    registration,
                )
            }
        }
    };
}

calls!(u16, packed);
calls!(u8, image);
