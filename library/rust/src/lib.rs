//! Safe Rust over the bench server: a server that opens the points of a motor test bench to a controller in the MELSEC
//! 3E and 4E forms. It does no input or output of its own: a request frame goes in, and a reply frame comes out.
//!
//! The points of twelve devices lie in storage that the caller lends: 16-bit words ([`PackedBench`]) or bytes
//! ([`ImageBench`]). `docs/PROTOCOL.md` of the repository has the rules, and the layouts of both.

#![warn(missing_docs)]
#![deny(unsafe_code)]

mod device;
mod refusal;
mod registration;
mod unit;

#[allow(unsafe_code)]
mod raw;

pub use device::Device;
pub use refusal::Refusal;
pub use registration::{Access, Registration};
pub use unit::Unit;

/// The least reply space that a frame is served with, in bytes: a shorter one is fault 1.
pub const REPLY_SPACE: usize = 4096;

/// The points that each device has, 0 to 65,536, in the order of [`Device`].
pub type Extents = [u32; 12];

/// The code that a frame and its reply are written in.
#[derive(Clone, Copy, Debug, PartialEq, Eq, Hash)]
pub enum Code {
    /// Bytes, low byte first.
    Binary,
    /// Hexadecimal digits, highest first.
    Ascii,
}

/// What was wrong with a frame: 1 to 6 where it was not taken up, else the end code of the error reply.
#[derive(Clone, Copy, Debug, PartialEq, Eq, Hash)]
pub struct Fault {
    /// The number, as the section "All numbers" of `docs/PROTOCOL.md` has it.
    pub number: u16,
    /// Where it was found, in bytes from the frame's front.
    pub place: usize,
}

/// What taking a frame came to.
#[derive(Clone, Copy, Debug, PartialEq, Eq, Hash)]
pub struct Answer {
    /// The bytes of the frame, 0 where it was not taken up. Bytes behind it belong to the next call.
    pub taken: usize,
    /// The bytes of the reply, which stands at the front of the reply space; 0 for no reply.
    pub length: usize,
    /// Why the frame was not taken up or its request refused; none for a request that was carried out.
    pub fault: Option<Fault>,
}

/// A bench over lent storage, with its write flag and what a controller has registered.
#[derive(Debug)]
pub struct Bench<'a, U: Unit> {
    units: &'a mut [U],
    extents: Extents,
    registration: Registration,
    /// Whether write commands are carried out; off at the start. [`Bench::set`] does not ask it.
    pub write_flag: bool,
}

/// A bench over packed tables: a word a word point, and sixteen bit points a word, the lowest number in bit 0. Each
/// device begins on a fresh word.
pub type PackedBench<'a> = Bench<'a, u16>;

/// A bench over a byte image: two bytes a word point, the low byte first, and a byte a bit point.
pub type ImageBench<'a> = Bench<'a, u8>;

impl<'a, U: Unit> Bench<'a, U> {
    /// How many units storage of these extents takes; [`Refusal::NoRoom`] where an extent is above 65,536.
    pub fn needed(extents: &Extents) -> Result<usize, Refusal> {
        let size = U::needed(extents);
        Refusal::check(size.status).map(|()| size.units)
    }

    /// A bench over the units as they stand; [`Refusal::NoRoom`] where an extent is above 65,536 or the units are too
    /// few. Units behind the last device are kept as they are.
    pub fn new(units: &'a mut [U], extents: Extents) -> Result<Self, Refusal> {
        if Self::needed(&extents)? > units.len() {
            return Err(Refusal::NoRoom);
        }
        Ok(Bench {
            units,
            extents,
            registration: Registration::new(),
            write_flag: false,
        })
    }

    /// Takes the frame at the front of `frame`, carries its request out and writes one reply at the front of `reply`.
    ///
    /// Any bytes may be handed in. The reply space wants [`REPLY_SPACE`] bytes. What is taken lies within the
    /// frame, the reply within its space. A call that tells a fault changes no unit of the storage and nothing of the
    /// registration; one that sends no reply changes no byte of the reply space.
    pub fn take_frame(&mut self, code: Code, frame: &[u8], reply: &mut [u8]) -> Answer {
        let code = match code {
            Code::Binary => 0,
            Code::Ascii => 1,
        };
        let told = U::take_frame(
            code,
            frame,
            reply,
            self.units,
            &self.extents,
            self.write_flag,
            &mut self.registration.0,
        );
        debug_assert_eq!(told.status, 0, "a bench has only good arguments to pass");
        let fault = (told.fault != 0).then_some(Fault {
            number: told.fault as u16,
            place: told.place,
        });
        Answer {
            taken: told.taken,
            length: told.length,
            fault,
        }
    }

    /// What a point holds: 0 or 1 of a bit device, 0 to 65,535 of a word device; none outside the extent.
    ///
    /// It changes nothing, but the archive borrows the units as it does to write them.
    pub fn read(&mut self, device: Device, number: u32) -> Option<u16> {
        let told = U::read(self.units, &self.extents, device.place(), number);
        (told.status == 0).then_some(told.value as u16)
    }

    /// Gives a point a value, whatever the write flag is: the bench's own setting. Refused are a point outside and a
    /// value above 1 for a bit device, which change nothing.
    pub fn set(&mut self, device: Device, number: u32, value: u16) -> Result<(), Refusal> {
        Refusal::check(U::set(
            self.units,
            &self.extents,
            device.place(),
            number,
            value,
        ))
    }

    /// The extents.
    pub fn extents(&self) -> &Extents {
        &self.extents
    }

    /// The storage as it stands.
    pub fn units(&self) -> &[U] {
        self.units
    }

    /// What is registered to be monitored.
    pub fn registration(&self) -> &Registration {
        &self.registration
    }
}
