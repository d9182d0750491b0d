//! Random frames: well formed ones of every command in both codes, and these changed, cut and made wild.

use crate::frames::{Fields, Head};
use crate::random::Random;
use bench_server::{Code, Device, Extents};

/// A frame for a bench of these extents.
pub fn frame(random: &mut Random, code: Code, extents: &Extents) -> Vec<u8> {
    if random.once_in(25) {
        return wild(random, code);
    }
    let mut frame = request(random, code, extents);
    match random.below(10) {
        0 => change(random, &mut frame),
        1 => cut(random, &mut frame),
        2 => {
            let more = random.within(1, 30);
            frame.extend((0..more).map(|_| random.byte()));
        }
        _ => {}
    }
    frame
}

/// A request with good fields, most of them within their limits.
fn request(random: &mut Random, code: Code, extents: &Extents) -> Vec<u8> {
    let (command, subcommand) = random.pick(&[
        (0x0401, 1),
        (0x0401, 0),
        (0x1401, 1),
        (0x1401, 0),
        (0x0403, 0),
        (0x0801, 0),
        (0x0802, 0),
        (0x1402, 1),
        (0x1402, 0),
    ]);
    let mut fields = Fields::new(code);
    match (command, subcommand) {
        (0x0802, _) => {}
        (0x0401 | 0x1401, _) => fields = batch(random, fields, code, extents, command, subcommand),
        (0x1402, 1) => fields = random_bits(random, fields, extents),
        _ => fields = list(random, fields, extents, command == 0x1402),
    }
    let mut data = fields.bytes;
    if random.once_in(30) {
        let kept = random.below(data.len() as u32 + 1) as usize;
        data.truncate(kept);
    } else if random.once_in(30) {
        let more = random.within(1, 4);
        data.extend((0..more).map(|_| random.byte()));
    }
    let mut head = Head::plain(code, command, subcommand);
    if random.once_in(20) {
        head.command = random.pick(&[0x0401, 0x0403, 0x1401, 0x1402, 0x0801, 0x0802, 0x0999]);
        head.subcommand = random.below(4);
    }
    if random.once_in(3) {
        head.serial = Some(random.below(65536));
    }
    if random.once_in(4) {
        head.route = [
            random.below(256),
            random.below(256),
            random.below(65536),
            random.below(256),
        ];
    }
    head.frame(&data)
}

/// A device, one with points more often than not, and of the kind wanted mostly.
fn device(random: &mut Random, extents: &Extents, bits: bool) -> Device {
    for _ in 0..6 {
        let device = random.pick(&Device::ALL);
        if extents[device.place() as usize] > 0 && (!bits || is_bit(device)) {
            return device;
        }
    }
    random.pick(&Device::ALL)
}

pub fn is_bit(device: Device) -> bool {
    device.place() < 6 || device == Device::TS
}

/// A number from which so many points lie within the extent mostly, and often just so.
fn number(random: &mut Random, extent: u32, points: u32) -> u32 {
    let last = extent.saturating_sub(points);
    match random.below(24) {
        0 => last + 1,
        1 => random.below(0x100_0000),
        2..=5 => last,
        6 => 0,
        _ => random.within(0, last),
    }
}

fn batch(
    random: &mut Random,
    fields: Fields,
    code: Code,
    extents: &Extents,
    command: u32,
    subcommand: u32,
) -> Fields {
    let device = device(random, extents, subcommand == 1);
    let extent = extents[device.place() as usize];
    let step = if subcommand == 0 && is_bit(device) {
        16
    } else {
        1
    };
    let limit = if subcommand == 1 { 3584 } else { 960 };
    let most = (extent / step).clamp(1, limit);
    let points = match random.below(20) {
        0 => random.pick(&[0, limit, limit + 1, 65535]),
        1..=3 => most,
        4..=6 => random.within(1, most),
        _ => random.within(1, most.min(20)),
    };
    let number = number(random, extent, points.saturating_mul(step));
    let mut fields = fields.device(device, number).number(2, points);
    if command == 0x1401 {
        let sent = points.min(limit) as usize;
        if subcommand == 1 {
            let bits: Vec<bool> = (0..sent).map(|_| random.once_in(2)).collect();
            fields = fields.bits(&bits);
            if random.once_in(15) {
                if let Some(last) = fields.bytes.last_mut() {
                    *last = random.pick(&[0x01, 0x02, 0x20, b'2', b'F', b'G', 0x11]);
                }
            }
        } else {
            for _ in 0..sent {
                fields = fields.number(2, random.below(65536));
            }
            if code == Code::Ascii && random.once_in(30) {
                let place = random.below(fields.bytes.len() as u32) as usize;
                fields.bytes[place] = random.byte();
            }
        }
    }
    fields
}

fn random_bits(random: &mut Random, mut fields: Fields, extents: &Extents) -> Fields {
    let count = if random.once_in(15) {
        random.pick(&[0, 188, 189, 255])
    } else {
        random.within(1, 30)
    };
    fields = fields.number(1, count);
    for _ in 0..count {
        let device = device(random, extents, true);
        let number = number(random, extents[device.place() as usize], 1);
        let value = if random.once_in(100) {
            random.below(256)
        } else {
            random.below(2)
        };
        fields = fields.device(device, number).number(1, value);
    }
    fields
}

/// A list of words and double words, with or without values.
fn list(random: &mut Random, mut fields: Fields, extents: &Extents, valued: bool) -> Fields {
    let (words, doubles) = match random.below(20) {
        0 => (random.below(256), random.below(256)),
        1 => random.pick(&[
            (0, 0),
            (192, 0),
            (0, 192),
            (193, 0),
            (160, 0),
            (161, 0),
            (0, 137),
            (0, 138),
        ]),
        _ => (random.below(12), random.below(12)),
    };
    fields = fields.number(1, words).number(1, doubles);
    for i in 0..words + doubles {
        let size = if i < words { 1 } else { 2 };
        let device = device(random, extents, false);
        let step = if is_bit(device) { 16 } else { 1 };
        let number = number(random, extents[device.place() as usize], size * step);
        fields = fields.device(device, number);
        if valued {
            fields = fields.number(2 * size as usize, random.next() as u32);
        }
    }
    fields
}

/// Changes one to three bytes.
fn change(random: &mut Random, frame: &mut [u8]) {
    for _ in 0..random.within(1, 3) {
        // the header has most of the tests
        let front = if random.once_in(2) {
            40
        } else {
            frame.len() as u32
        };
        let place = random.below(front.min(frame.len() as u32)) as usize;
        frame[place] = match random.below(4) {
            0 => random.byte(),
            1 => random.pick(b"0123456789ABCDEFG* a"),
            2 => frame[place] ^ 1 << random.below(8),
            _ => frame[place].wrapping_add(1),
        };
    }
}

fn cut(random: &mut Random, frame: &mut Vec<u8>) {
    let kept = random.below(frame.len() as u32) as usize;
    frame.truncate(kept);
}

/// Any bytes, with a subheader before them mostly.
fn wild(random: &mut Random, code: Code) -> Vec<u8> {
    let subheader: &[u8] = match (code, random.below(3)) {
        (_, 0) => b"",
        (Code::Binary, 1) => b"\x50\x00",
        (Code::Binary, _) => b"\x54\x00",
        (Code::Ascii, 1) => b"5000",
        (Code::Ascii, _) => b"5400",
    };
    let mut frame = subheader.to_vec();
    let digits = code == Code::Ascii && random.once_in(2);
    for _ in 0..random.below(200) {
        frame.push(if digits {
            random.pick(b"0123456789ABCDEF")
        } else {
            random.byte()
        });
    }
    frame
}
