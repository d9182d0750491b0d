//! Reading and testing the requests.

use super::memory::{Layout, Memory};
use super::table::{is_bit, word_points};
use super::wire::{Misread, Wire};
use super::{Access, Fault, Header, List};

/// A request that passed its tests. Lists lie in the scratch space.
pub enum Request<'a> {
    ReadBits {
        device: usize,
        number: u32,
        points: usize,
    },
    ReadWords {
        device: usize,
        number: u32,
        points: usize,
    },
    WriteBits {
        device: usize,
        number: u32,
        points: usize,
        data: &'a [u8],
    },
    WriteWords {
        device: usize,
        number: u32,
        points: usize,
        data: &'a [u8],
    },
    ReadRandom,
    Register,
    Monitor,
    WriteRandomBits,
    WriteRandom,
}

/// Where lists of a request are held, kept from call to call.
pub struct Scratch {
    pub list: List,
    values: Vec<u32>,
}

impl Scratch {
    pub fn new() -> Scratch {
        Scratch {
            list: List {
                words: 0,
                accesses: Vec::with_capacity(192),
            },
            values: Vec::with_capacity(192),
        }
    }

    fn clear(&mut self, words: usize) {
        self.list.words = words;
        self.list.accesses.clear();
        self.values.clear();
    }

    pub fn settings(&self) -> impl Iterator<Item = (Access, u32)> + '_ {
        self.list
            .accesses
            .iter()
            .copied()
            .zip(self.values.iter().copied())
    }
}

/// Reads fields one behind the other.
struct Reader<'a> {
    frame: &'a [u8],
    at: usize,
}

impl<'a> Reader<'a> {
    fn take(&mut self, size: usize) -> Result<&'a [u8], Fault> {
        let field = self
            .frame
            .get(self.at..self.at + size)
            .ok_or(Fault::new(0xC061, self.at))?;
        self.at += size;
        Ok(field)
    }

    /// A number of so many bytes.
    fn number<W: Wire>(&mut self, bytes: usize) -> Result<u32, Fault> {
        let at = self.at;
        let field = self.take(bytes * W::BYTES)?;
        W::test_digits(field, 0, field.len()).map_err(|place| Fault::new(0xC050, at + place))?;
        Ok(W::known(field))
    }

    fn device<W: Wire>(&mut self) -> Result<Access, Fault> {
        let at = self.at;
        let field = self.take(4 * W::BYTES)?;
        match W::device(field) {
            Ok((device, number)) => Ok(Access { device, number }),
            Err(Misread::Unknown) => Err(Fault::new(0xC05B, at)),
            Err(Misread::Digit(place)) => Err(Fault::new(0xC050, at + place)),
        }
    }

    fn bit_device<W: Wire>(&mut self) -> Result<Access, Fault> {
        let at = self.at;
        let access = self.device::<W>()?;
        if is_bit(access.device) {
            Ok(access)
        } else {
            Err(Fault::new(0xC05C, at))
        }
    }

    /// A count within its limits.
    fn count<W: Wire>(&mut self, bytes: usize, limit: u32, number: u16) -> Result<usize, Fault> {
        let at = self.at;
        let count = self.number::<W>(bytes)?;
        if (1..=limit).contains(&count) {
            Ok(count as usize)
        } else {
            Err(Fault::new(number, at))
        }
    }

    /// The counts of words and of double words.
    fn counts<W: Wire>(&mut self) -> Result<(usize, usize, usize), Fault> {
        let at = self.at;
        let field = self.take(2 * W::BYTES)?;
        W::test_digits(field, 0, field.len()).map_err(|place| Fault::new(0xC050, at + place))?;
        let (words, doubles) = field.split_at(W::BYTES);
        Ok((W::known(words) as usize, W::known(doubles) as usize, at))
    }

    fn end(&self) -> Result<(), Fault> {
        if self.at == self.frame.len() {
            Ok(())
        } else {
            Err(Fault::new(0xC061, self.at))
        }
    }
}

fn test_span<L: Layout>(
    memory: &Memory<L>,
    access: Access,
    points: u32,
    at: usize,
) -> Result<(), Fault> {
    if memory.has(access.device, access.number, points) {
        Ok(())
    } else {
        Err(Fault::new(0xC056, at))
    }
}

pub fn read<'a, W: Wire, L: Layout>(
    frame: &'a [u8],
    header: &Header,
    memory: &Memory<L>,
    write_flag: bool,
    scratch: &mut Scratch,
) -> Result<Request<'a>, Fault> {
    let at = header.command_at + 4 * W::BYTES;
    let mut reader = Reader { frame, at };
    let request = match (header.command, header.subcommand) {
        (0x1401, 0 | 1) | (0x1402, 0 | 1) if !write_flag => {
            return Err(Fault::new(0x0055, header.command_at))
        }
        (0x0401, 1) => {
            let access = reader.bit_device::<W>()?;
            let points = reader.count::<W>(2, 3584, 0xC051)?;
            test_span(memory, access, points as u32, at)?;
            Request::ReadBits {
                device: access.device,
                number: access.number,
                points,
            }
        }
        (0x0401, 0) => {
            let access = reader.device::<W>()?;
            let points = reader.count::<W>(2, 960, 0xC052)?;
            let covered = points as u32 * word_points(access.device);
            test_span(memory, access, covered, at)?;
            Request::ReadWords {
                device: access.device,
                number: access.number,
                points,
            }
        }
        (0x1401, 1) => {
            let access = reader.bit_device::<W>()?;
            let points = reader.count::<W>(2, 3584, 0xC051)?;
            test_span(memory, access, points as u32, at)?;
            let data_at = reader.at;
            let data = reader.take(W::bits_size(points))?;
            W::test_bit_digits(data).map_err(|place| Fault::new(0xC050, data_at + place))?;
            if !W::are_bits(data, points) {
                return Err(Fault::new(0xC060, data_at));
            }
            Request::WriteBits {
                device: access.device,
                number: access.number,
                points,
                data,
            }
        }
        (0x1401, 0) => {
            let access = reader.device::<W>()?;
            let points = reader.count::<W>(2, 960, 0xC052)?;
            let covered = points as u32 * word_points(access.device);
            test_span(memory, access, covered, at)?;
            let data_at = reader.at;
            let data = reader.take(points * 2 * W::BYTES)?;
            W::test_digits(data, 0, data.len())
                .map_err(|place| Fault::new(0xC050, data_at + place))?;
            Request::WriteWords {
                device: access.device,
                number: access.number,
                points,
                data,
            }
        }
        (0x0403, 0) => {
            read_accesses::<W, L>(&mut reader, memory, scratch)?;
            Request::ReadRandom
        }
        (0x0801, 0) => {
            read_accesses::<W, L>(&mut reader, memory, scratch)?;
            Request::Register
        }
        (0x0802, 0) => Request::Monitor,
        (0x1402, 1) => {
            read_bit_settings::<W, L>(&mut reader, memory, scratch)?;
            Request::WriteRandomBits
        }
        (0x1402, 0) => {
            read_settings::<W, L>(&mut reader, memory, scratch)?;
            Request::WriteRandom
        }
        _ => return Err(Fault::new(0xC059, header.command_at)),
    };
    reader.end()?;
    Ok(request)
}

/// A device and the span of so many words.
fn spanned<W: Wire, L: Layout>(
    reader: &mut Reader,
    memory: &Memory<L>,
    words: u32,
) -> Result<Access, Fault> {
    let at = reader.at;
    let access = reader.device::<W>()?;
    test_span(memory, access, words * word_points(access.device), at)?;
    Ok(access)
}

fn read_accesses<W: Wire, L: Layout>(
    reader: &mut Reader,
    memory: &Memory<L>,
    scratch: &mut Scratch,
) -> Result<(), Fault> {
    let (words, doubles, at) = reader.counts::<W>()?;
    if !(1..=192).contains(&(words + doubles)) {
        return Err(Fault::new(0xC054, at));
    }
    scratch.clear(words);
    for i in 0..words + doubles {
        let size = if i < words { 1 } else { 2 };
        let access = spanned::<W, L>(reader, memory, size)?;
        scratch.list.accesses.push(access);
    }
    Ok(())
}

fn read_bit_settings<W: Wire, L: Layout>(
    reader: &mut Reader,
    memory: &Memory<L>,
    scratch: &mut Scratch,
) -> Result<(), Fault> {
    let count = reader.count::<W>(1, 188, 0xC053)?;
    scratch.clear(count);
    for _ in 0..count {
        let at = reader.at;
        let access = reader.bit_device::<W>()?;
        test_span(memory, access, 1, at)?;
        let value_at = reader.at;
        let value = reader.number::<W>(1)?;
        if value > 1 {
            return Err(Fault::new(0xC060, value_at));
        }
        scratch.list.accesses.push(access);
        scratch.values.push(value);
    }
    Ok(())
}

fn read_settings<W: Wire, L: Layout>(
    reader: &mut Reader,
    memory: &Memory<L>,
    scratch: &mut Scratch,
) -> Result<(), Fault> {
    let (words, doubles, at) = reader.counts::<W>()?;
    if !(1..=1920).contains(&(12 * words + 14 * doubles)) {
        return Err(Fault::new(0xC054, at));
    }
    scratch.clear(words);
    for i in 0..words + doubles {
        let size = if i < words { 1 } else { 2 };
        let access = spanned::<W, L>(reader, memory, size)?;
        let value = reader.number::<W>(2 * size as usize)?;
        scratch.list.accesses.push(access);
        scratch.values.push(value);
    }
    Ok(())
}
