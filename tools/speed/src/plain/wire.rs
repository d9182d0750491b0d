//! Numbers, device fields and bit data in both codes.

use super::table;

/// Why a device field that is all there cannot be read.
pub enum Misread {
    Unknown,
    /// a bad digit, by its place in the field
    Digit(usize),
}

pub trait Wire {
    /// wire bytes a byte
    const BYTES: usize;
    const REQUEST_3E: &'static [u8];
    const REQUEST_4E: &'static [u8];
    const REPLY_3E: &'static [u8];
    const REPLY_4E: &'static [u8];
    const ZERO_WORD: &'static [u8];

    /// Whether a frame has digits alone between two places; else the place of the first bad one.
    fn test_digits(frame: &[u8], from: usize, to: usize) -> Result<(), usize>;

    /// The number in a field whose digits are good.
    fn known(field: &[u8]) -> u32;

    /// The same of two bytes.
    fn known_word(field: &[u8]) -> u16;

    fn put_word(out: &mut [u8], value: u16);

    fn device(field: &[u8]) -> Result<(usize, u32), Misread>;

    fn bits_size(points: usize) -> usize;

    /// The digit of a point in bit data; above 15 where it is none.
    fn half(data: &[u8], index: usize) -> u8;

    /// Whether bit data are digits alone; else the place of the first bad one in them.
    fn test_bit_digits(data: &[u8]) -> Result<(), usize>;

    /// Whether bit data have only 0 and 1, and are filled by 0.
    fn are_bits(data: &[u8], points: usize) -> bool;

    /// Writes points in bits.
    fn put_bits(out: &mut [u8], points: usize, bit: impl Fn(usize) -> bool);
}

pub enum Binary {}

impl Wire for Binary {
    const BYTES: usize = 1;
    const REQUEST_3E: &'static [u8] = &[0x50, 0x00];
    const REQUEST_4E: &'static [u8] = &[0x54, 0x00];
    const REPLY_3E: &'static [u8] = &[0xD0, 0x00];
    const REPLY_4E: &'static [u8] = &[0xD4, 0x00];
    const ZERO_WORD: &'static [u8] = &[0, 0];

    fn test_digits(_: &[u8], _: usize, _: usize) -> Result<(), usize> {
        Ok(())
    }

    fn known(field: &[u8]) -> u32 {
        field
            .iter()
            .rev()
            .fold(0, |number, byte| number << 8 | u32::from(*byte))
    }

    fn known_word(field: &[u8]) -> u16 {
        u16::from_le_bytes([field[0], field[1]])
    }

    fn put_word(out: &mut [u8], value: u16) {
        out[..2].copy_from_slice(&value.to_le_bytes());
    }

    fn device(field: &[u8]) -> Result<(usize, u32), Misread> {
        let device = table::by_code(field[3]).ok_or(Misread::Unknown)?;
        let number = u32::from_le_bytes([field[0], field[1], field[2], 0]);
        Ok((device, number))
    }

    fn bits_size(points: usize) -> usize {
        points.div_ceil(2)
    }

    fn half(data: &[u8], index: usize) -> u8 {
        let byte = data[index / 2];
        if index % 2 == 0 {
            byte >> 4
        } else {
            byte & 15
        }
    }

    fn test_bit_digits(_: &[u8]) -> Result<(), usize> {
        Ok(())
    }

    fn are_bits(data: &[u8], points: usize) -> bool {
        let bits = data.iter().all(|byte| byte & !0x11 == 0);
        bits && (points % 2 == 0 || data[points / 2] & 15 == 0)
    }

    fn put_bits(out: &mut [u8], points: usize, bit: impl Fn(usize) -> bool) {
        for (i, byte) in out[..points / 2].iter_mut().enumerate() {
            *byte = u8::from(bit(2 * i)) << 4 | u8::from(bit(2 * i + 1));
        }
        if points % 2 == 1 {
            out[points / 2] = u8::from(bit(points - 1)) << 4;
        }
    }
}

/// What a character that is no digit maps to.
const NO_DIGIT: u8 = 0xFF;

static DIGITS: [u8; 256] = digits();

const fn digits() -> [u8; 256] {
    let mut digits = [NO_DIGIT; 256];
    let mut i = 0;
    while i < 16 {
        digits[HEX[i] as usize] = i as u8;
        i += 1;
    }
    digits
}

const HEX: &[u8; 16] = b"0123456789ABCDEF";

fn digit(character: u8) -> u8 {
    DIGITS[character as usize]
}

pub enum Ascii {}

impl Wire for Ascii {
    const BYTES: usize = 2;
    const REQUEST_3E: &'static [u8] = b"5000";
    const REQUEST_4E: &'static [u8] = b"5400";
    const REPLY_3E: &'static [u8] = b"D000";
    const REPLY_4E: &'static [u8] = b"D400";
    const ZERO_WORD: &'static [u8] = b"0000";

    fn test_digits(frame: &[u8], from: usize, to: usize) -> Result<(), usize> {
        match frame[from..to].iter().position(|c| digit(*c) == NO_DIGIT) {
            Some(place) => Err(from + place),
            None => Ok(()),
        }
    }

    fn known(field: &[u8]) -> u32 {
        field
            .iter()
            .fold(0, |number, c| number << 4 | u32::from(digit(*c)))
    }

    fn known_word(field: &[u8]) -> u16 {
        field[..4]
            .iter()
            .fold(0, |number, c| number << 4 | u16::from(digit(*c)))
    }

    fn put_word(out: &mut [u8], value: u16) {
        let value = usize::from(value);
        let digits = [
            HEX[value >> 12],
            HEX[value >> 8 & 15],
            HEX[value >> 4 & 15],
            HEX[value & 15],
        ];
        out[..4].copy_from_slice(&digits);
    }

    fn device(field: &[u8]) -> Result<(usize, u32), Misread> {
        let device = table::by_symbol([field[0], field[1]]).ok_or(Misread::Unknown)?;
        let base = if table::is_hexadecimal(device) {
            16
        } else {
            10
        };
        let mut number = 0;
        for (i, c) in field[2..8].iter().enumerate() {
            let digit = u32::from(digit(*c));
            if digit >= base {
                return Err(Misread::Digit(2 + i));
            }
            number = number * base + digit;
        }
        Ok((device, number))
    }

    fn bits_size(points: usize) -> usize {
        points
    }

    fn half(data: &[u8], index: usize) -> u8 {
        digit(data[index])
    }

    fn test_bit_digits(data: &[u8]) -> Result<(), usize> {
        match data.iter().position(|c| digit(*c) == NO_DIGIT) {
            Some(place) => Err(place),
            None => Ok(()),
        }
    }

    fn are_bits(data: &[u8], _points: usize) -> bool {
        data.iter().all(|c| digit(*c) <= 1)
    }

    fn put_bits(out: &mut [u8], points: usize, bit: impl Fn(usize) -> bool) {
        for (i, byte) in out[..points].iter_mut().enumerate() {
            *byte = b'0' + u8::from(bit(i));
        }
    }
}
