//! The two servers over storage of one kind.

use crate::plain;
use bench_server::{Bench, Code, Unit};

/// A unit of storage that both servers know.
pub trait Kind: Unit + std::fmt::Debug + PartialEq + 'static {
    type Layout: plain::Layout<Unit = Self>;
    const NAME: &'static str;

    fn from_number(number: u64) -> Self;
}

impl Kind for u16 {
    type Layout = plain::Packed;
    const NAME: &'static str = "packed tables";

    fn from_number(number: u64) -> u16 {
        number as u16
    }
}

impl Kind for u8 {
    type Layout = plain::Image;
    const NAME: &'static str = "an image";

    fn from_number(number: u64) -> u8 {
        number as u8
    }
}

/// What both servers answer, in one form.
#[derive(Debug, PartialEq, Eq)]
pub struct Told {
    pub taken: usize,
    pub length: usize,
    pub fault: Option<(u16, usize)>,
}

/// A server that takes frames.
pub trait Takes {
    fn take(&mut self, code: Code, frame: &[u8], reply: &mut [u8]) -> Told;
}

impl<U: Kind> Takes for Bench<'_, U> {
    fn take(&mut self, code: Code, frame: &[u8], reply: &mut [u8]) -> Told {
        let answer = self.take_frame(code, frame, reply);
        Told {
            taken: answer.taken,
            length: answer.length,
            fault: answer.fault.map(|fault| (fault.number, fault.place)),
        }
    }
}

impl<L: plain::Layout> Takes for plain::Server<'_, L> {
    fn take(&mut self, code: Code, frame: &[u8], reply: &mut [u8]) -> Told {
        let answer = match code {
            Code::Binary => self.take_frame::<plain::Binary>(frame, reply),
            Code::Ascii => self.take_frame::<plain::Ascii>(frame, reply),
        };
        Told {
            taken: answer.taken,
            length: answer.length,
            fault: answer.fault.map(|fault| (fault.number, fault.place)),
        }
    }
}
