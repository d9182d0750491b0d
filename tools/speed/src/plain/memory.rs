//! The points in lent storage, in either layout.

use super::table::{is_bit, DEVICES};

/// How units hold the points of a device that begins at a unit.
pub trait Layout {
    type Unit: Copy;

    fn bit_units(points: usize) -> usize;
    fn word_units(points: usize) -> usize;

    fn bit(units: &[Self::Unit], start: usize, number: usize) -> bool;
    fn set_bit(units: &mut [Self::Unit], start: usize, number: usize, on: bool);
    fn word(units: &[Self::Unit], start: usize, number: usize) -> u16;
    fn set_word(units: &mut [Self::Unit], start: usize, number: usize, value: u16);

    /// Sixteen bit points, the lowest number in bit 0.
    fn sixteen(units: &[Self::Unit], start: usize, number: usize) -> u16;
    fn set_sixteen(units: &mut [Self::Unit], start: usize, number: usize, value: u16);
}

/// Sixteen bit points a word.
pub enum Packed {}

impl Layout for Packed {
    type Unit = u16;

    fn bit_units(points: usize) -> usize {
        points.div_ceil(16)
    }

    fn word_units(points: usize) -> usize {
        points
    }

    fn bit(units: &[u16], start: usize, number: usize) -> bool {
        units[start + number / 16] >> (number % 16) & 1 == 1
    }

    fn set_bit(units: &mut [u16], start: usize, number: usize, on: bool) {
        let unit = &mut units[start + number / 16];
        let shift = number % 16;
        *unit = *unit & !(1 << shift) | u16::from(on) << shift;
    }

    fn word(units: &[u16], start: usize, number: usize) -> u16 {
        units[start + number]
    }

    fn set_word(units: &mut [u16], start: usize, number: usize, value: u16) {
        units[start + number] = value;
    }

    fn sixteen(units: &[u16], start: usize, number: usize) -> u16 {
        let at = start + number / 16;
        match number % 16 {
            0 => units[at],
            shift => units[at] >> shift | units[at + 1] << (16 - shift),
        }
    }

    fn set_sixteen(units: &mut [u16], start: usize, number: usize, value: u16) {
        let at = start + number / 16;
        match number % 16 {
            0 => units[at] = value,
            shift => {
                units[at] = units[at] & !(0xFFFF << shift) | value << shift;
                units[at + 1] = units[at + 1] & (0xFFFF << shift) | value >> (16 - shift);
            }
        }
    }
}

/// A byte a bit point, two bytes a word point.
pub enum Image {}

impl Layout for Image {
    type Unit = u8;

    fn bit_units(points: usize) -> usize {
        points
    }

    fn word_units(points: usize) -> usize {
        2 * points
    }

    fn bit(units: &[u8], start: usize, number: usize) -> bool {
        units[start + number] != 0
    }

    fn set_bit(units: &mut [u8], start: usize, number: usize, on: bool) {
        units[start + number] = u8::from(on);
    }

    fn word(units: &[u8], start: usize, number: usize) -> u16 {
        let at = start + 2 * number;
        u16::from_le_bytes([units[at], units[at + 1]])
    }

    fn set_word(units: &mut [u8], start: usize, number: usize, value: u16) {
        let at = start + 2 * number;
        units[at..at + 2].copy_from_slice(&value.to_le_bytes());
    }

    fn sixteen(units: &[u8], start: usize, number: usize) -> u16 {
        let bytes = &units[start + number..][..16];
        bytes
            .iter()
            .rev()
            .fold(0, |word, byte| word << 1 | u16::from(*byte != 0))
    }

    fn set_sixteen(units: &mut [u8], start: usize, number: usize, value: u16) {
        let bytes = &mut units[start + number..][..16];
        for (i, byte) in bytes.iter_mut().enumerate() {
            *byte = (value >> i & 1) as u8;
        }
    }
}

pub struct Memory<'a, L: Layout> {
    units: &'a mut [L::Unit],
    extents: [u32; DEVICES],
    starts: [usize; DEVICES],
}

impl<'a, L: Layout> Memory<'a, L> {
    pub fn new(units: &'a mut [L::Unit], extents: [u32; DEVICES]) -> Option<Self> {
        let mut starts = [0; DEVICES];
        let mut end = 0;
        for (device, points) in extents.iter().enumerate() {
            if *points > 65536 {
                return None;
            }
            starts[device] = end;
            end += if is_bit(device) {
                L::bit_units(*points as usize)
            } else {
                L::word_units(*points as usize)
            };
        }
        (end <= units.len()).then_some(Memory {
            units,
            extents,
            starts,
        })
    }

    pub fn units(&self) -> &[L::Unit] {
        self.units
    }

    /// Whether so many points from a number on lie within the device.
    pub fn has(&self, device: usize, number: u32, points: u32) -> bool {
        u64::from(number) + u64::from(points) <= u64::from(self.extents[device])
    }

    pub fn read(&self, device: usize, number: u32) -> Option<u16> {
        if number >= self.extents[device] {
            return None;
        }
        Some(if is_bit(device) {
            u16::from(self.bit(device, number))
        } else {
            self.word(device, number)
        })
    }

    /// The bench's own setting; refused by number.
    pub fn set(&mut self, device: usize, number: u32, value: u16) -> Result<(), u32> {
        if number >= self.extents[device] {
            return Err(11);
        }
        if !is_bit(device) {
            self.set_word(device, number, value);
        } else if value <= 1 {
            self.set_bit(device, number, value == 1);
        } else {
            return Err(13);
        }
        Ok(())
    }

    pub fn bit(&self, device: usize, number: u32) -> bool {
        L::bit(self.units, self.starts[device], number as usize)
    }

    pub fn set_bit(&mut self, device: usize, number: u32, on: bool) {
        L::set_bit(self.units, self.starts[device], number as usize, on);
    }

    /// The word that begins at a point: sixteen points of a bit device.
    pub fn word(&self, device: usize, number: u32) -> u16 {
        let start = self.starts[device];
        if is_bit(device) {
            L::sixteen(self.units, start, number as usize)
        } else {
            L::word(self.units, start, number as usize)
        }
    }

    pub fn set_word(&mut self, device: usize, number: u32, value: u16) {
        let start = self.starts[device];
        if is_bit(device) {
            L::set_sixteen(self.units, start, number as usize, value);
        } else {
            L::set_word(self.units, start, number as usize, value);
        }
    }
}
