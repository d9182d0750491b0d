//! The server that the bench server is measured against: the same rules in ordinary fast Rust, with nothing proved.

mod memory;
mod reply;
mod request;
mod table;
mod wire;

pub use memory::{Image, Layout, Memory, Packed};
pub use wire::{Ascii, Binary, Wire};

use request::{Request, Scratch};

/// What was wrong with a frame, by number and place.
#[derive(Clone, Copy, Debug, PartialEq, Eq)]
pub struct Fault {
    pub number: u16,
    pub place: usize,
}

impl Fault {
    fn new(number: u16, place: usize) -> Fault {
        Fault { number, place }
    }
}

#[derive(Clone, Copy, Debug, PartialEq, Eq)]
pub struct Answer {
    pub taken: usize,
    pub length: usize,
    pub fault: Option<Fault>,
}

/// A device, by its place in the table, and the number of its first point.
#[derive(Clone, Copy, Debug, PartialEq, Eq)]
pub struct Access {
    pub device: usize,
    pub number: u32,
}

/// Accesses of one word, and then accesses of a double word.
#[derive(Clone, Debug, Default, PartialEq, Eq)]
pub struct List {
    pub words: usize,
    pub accesses: Vec<Access>,
}

/// What a frame's header says, by its places in the frame.
struct Header {
    /// bytes of the whole frame
    size: usize,
    route_at: usize,
    command_at: usize,
    command: u32,
    subcommand: u32,
}

/// A server over lent storage.
pub struct Server<'a, L: Layout> {
    memory: Memory<'a, L>,
    registered: Option<List>,
    scratch: Scratch,
    pub write_flag: bool,
}

impl<'a, L: Layout> Server<'a, L> {
    /// None where an extent is too large or the storage too short.
    pub fn new(units: &'a mut [L::Unit], extents: [u32; 12]) -> Option<Self> {
        Some(Server {
            memory: Memory::new(units, extents)?,
            registered: None,
            scratch: Scratch::new(),
            write_flag: false,
        })
    }

    pub fn memory(&self) -> &Memory<'a, L> {
        &self.memory
    }

    pub fn memory_mut(&mut self) -> &mut Memory<'a, L> {
        &mut self.memory
    }

    pub fn registered(&self) -> Option<&List> {
        self.registered.as_ref()
    }

    /// Takes the frame at the front of `frame`.
    pub fn take_frame<W: Wire>(&mut self, frame: &[u8], reply: &mut [u8]) -> Answer {
        let header = match read_header::<W>(frame, reply.len()) {
            Ok(header) => header,
            Err(fault) => {
                return Answer {
                    taken: 0,
                    length: 0,
                    fault: Some(fault),
                }
            }
        };
        let frame = &frame[..header.size];
        match self.carry_out::<W>(frame, &header, reply) {
            Ok(length) => Answer {
                taken: header.size,
                length,
                fault: None,
            },
            Err(fault) => Answer {
                taken: header.size,
                length: reply::refuse::<W>(frame, &header, fault.number, reply),
                fault: Some(fault),
            },
        }
    }

    /// Reads the request, carries it out and writes its reply.
    fn carry_out<W: Wire>(
        &mut self,
        frame: &[u8],
        header: &Header,
        reply: &mut [u8],
    ) -> Result<usize, Fault> {
        let request = request::read::<W, L>(
            frame,
            header,
            &self.memory,
            self.write_flag,
            &mut self.scratch,
        )?;
        let memory = &mut self.memory;
        Ok(match request {
            Request::ReadBits {
                device,
                number,
                points,
            } => reply::show_bits::<W, L>(frame, header, memory, device, number, points, reply),
            Request::ReadWords {
                device,
                number,
                points,
            } => reply::show_words::<W, L>(frame, header, memory, device, number, points, reply),
            Request::WriteBits {
                device,
                number,
                points,
                data,
            } => {
                for i in 0..points {
                    memory.set_bit(device, number + i as u32, W::half(data, i) != 0);
                }
                reply::accept::<W>(frame, header, reply)
            }
            Request::WriteWords {
                device,
                number,
                points,
                data,
            } => {
                let step = table::word_points(device);
                for (i, field) in data.chunks_exact(2 * W::BYTES).take(points).enumerate() {
                    let value = W::known_word(field);
                    memory.set_word(device, number + i as u32 * step, value);
                }
                reply::accept::<W>(frame, header, reply)
            }
            Request::ReadRandom => {
                reply::show_list::<W, L>(frame, header, memory, &self.scratch.list, reply)
            }
            Request::Register => {
                let list = self.registered.get_or_insert_with(List::default);
                std::mem::swap(list, &mut self.scratch.list);
                reply::accept::<W>(frame, header, reply)
            }
            Request::Monitor => match &self.registered {
                Some(list) => reply::show_list::<W, L>(frame, header, memory, list, reply),
                None => return Err(Fault::new(0xC05D, header.command_at)),
            },
            Request::WriteRandomBits => {
                for (access, value) in self.scratch.settings() {
                    memory.set_bit(access.device, access.number, value != 0);
                }
                reply::accept::<W>(frame, header, reply)
            }
            Request::WriteRandom => {
                let words = self.scratch.list.words;
                for (i, (access, value)) in self.scratch.settings().enumerate() {
                    memory.set_word(access.device, access.number, value as u16);
                    if i >= words {
                        let next = access.number + table::word_points(access.device);
                        memory.set_word(access.device, next, (value >> 16) as u16);
                    }
                }
                reply::accept::<W>(frame, header, reply)
            }
        })
    }
}

/// Tests a frame and reads its header.
fn read_header<W: Wire>(frame: &[u8], space: usize) -> Result<Header, Fault> {
    if space < 4096 {
        return Err(Fault::new(1, 0));
    }
    let incomplete = Fault::new(2, frame.len());
    let subheader = frame.get(..2 * W::BYTES).ok_or(incomplete)?;
    let route = if subheader == W::REQUEST_3E {
        2
    } else if subheader == W::REQUEST_4E {
        6
    } else {
        return Err(Fault::new(3, 0));
    };
    let route_at = route * W::BYTES;
    let length_at = (route + 5) * W::BYTES;
    let timer_at = (route + 7) * W::BYTES;
    if frame.len() < timer_at {
        return Err(incomplete);
    }
    W::test_digits(frame, 2 * W::BYTES, timer_at).map_err(|place| Fault::new(4, place))?;
    if route == 6 && W::known_word(&frame[4 * W::BYTES..6 * W::BYTES]) != 0 {
        return Err(Fault::new(5, 4 * W::BYTES));
    }
    let length = W::known_word(&frame[length_at..timer_at]) as usize;
    if !(6 * W::BYTES..=8192).contains(&length) {
        return Err(Fault::new(6, length_at));
    }
    let size = timer_at + length;
    if frame.len() < size {
        return Err(incomplete);
    }
    let command_at = timer_at + 2 * W::BYTES;
    let data_at = timer_at + 6 * W::BYTES;
    W::test_digits(frame, timer_at, data_at).map_err(|place| Fault::new(4, place))?;
    let subcommand_at = command_at + 2 * W::BYTES;
    Ok(Header {
        size,
        route_at,
        command_at,
        command: u32::from(W::known_word(&frame[command_at..subcommand_at])),
        subcommand: u32::from(W::known_word(&frame[subcommand_at..data_at])),
    })
}
