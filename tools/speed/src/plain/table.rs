//! The twelve devices, by their places in ascending order of code.

pub const DEVICES: usize = 12;

/// What a byte that names no device maps to.
pub const NONE: u8 = 0xFF;

const CODES: [u8; DEVICES] = [
    0x90, 0x91, 0x92, 0x9C, 0x9D, 0xA0, 0xA8, 0xA9, 0xB0, 0xB4, 0xC1, 0xC2,
];

const BITS: [bool; DEVICES] = [
    true, true, true, true, true, true, false, false, false, false, true, false,
];

const HEXADECIMAL: [bool; DEVICES] = [
    false, false, false, true, true, true, false, false, true, true, false, false,
];

/// The place of the device of each code.
static PLACES: [u8; 256] = places();

const fn places() -> [u8; 256] {
    let mut places = [NONE; 256];
    let mut place = 0;
    while place < DEVICES {
        places[CODES[place] as usize] = place as u8;
        place += 1;
    }
    places
}

pub fn by_code(code: u8) -> Option<usize> {
    match PLACES[code as usize] {
        NONE => None,
        place => Some(place as usize),
    }
}

pub fn by_symbol(symbol: [u8; 2]) -> Option<usize> {
    Some(match &symbol {
        b"M*" => 0,
        b"SM" => 1,
        b"L*" => 2,
        b"X*" => 3,
        b"Y*" => 4,
        b"B*" => 5,
        b"D*" => 6,
        b"SD" => 7,
        b"ZR" => 8,
        b"W*" => 9,
        b"TS" => 10,
        b"TN" => 11,
        _ => return None,
    })
}

pub fn is_bit(device: usize) -> bool {
    BITS[device]
}

pub fn is_hexadecimal(device: usize) -> bool {
    HEXADECIMAL[device]
}

/// How many points a word of the device has.
pub fn word_points(device: usize) -> u32 {
    if BITS[device] {
        16
    } else {
        1
    }
}
