//! The rows of the table: frames that are served again and again.

use crate::frames::{Fields, Head};
use bench_server::{Code, Device, Extents};

/// The points of each device.
pub const EXTENTS: Extents = [16384; 12];

/// A kind of frame.
#[derive(Clone, Copy)]
pub struct Row {
    /// in one word, for the command line
    pub name: &'static str,
    /// as the table has it
    pub title: &'static str,
    /// the fault that the frame meets, or 0
    pub fault: u16,
    data: fn(Fields) -> Fields,
    command: (u32, u32),
}

pub const ROWS: [Row; 14] = [
    Row {
        name: "small-read",
        title: "read 1 word of D",
        fault: 0,
        data: |fields| fields.device(Device::D, 100).number(2, 1),
        command: (0x0401, 0),
    },
    Row {
        name: "words-d",
        title: "read 960 words of D",
        fault: 0,
        data: |fields| fields.device(Device::D, 100).number(2, 960),
        command: (0x0401, 0),
    },
    Row {
        name: "words-m",
        title: "read 960 words of M",
        fault: 0,
        data: |fields| fields.device(Device::M, 160).number(2, 960),
        command: (0x0401, 0),
    },
    Row {
        name: "bits-m",
        title: "read 3,584 bits of M",
        fault: 0,
        data: |fields| fields.device(Device::M, 160).number(2, 3584),
        command: (0x0401, 1),
    },
    Row {
        name: "random-read",
        title: "192 random reads of words",
        fault: 0,
        data: |fields| accesses(fields.number(1, 192).number(1, 0), 192),
        command: (0x0403, 0),
    },
    Row {
        name: "random-write",
        title: "160 random writes of words",
        fault: 0,
        data: settings,
        command: (0x1402, 0),
    },
    Row {
        name: "register",
        title: "register 192 words",
        fault: 0,
        data: |fields| accesses(fields.number(1, 192).number(1, 0), 192),
        command: (0x0801, 0),
    },
    Row {
        name: "monitor",
        title: "monitor of 192 words",
        fault: 0,
        data: |fields| fields,
        command: (0x0802, 0),
    },
    Row {
        name: "write-words-d",
        title: "write 960 words of D",
        fault: 0,
        data: |fields| words(fields.device(Device::D, 100).number(2, 960)),
        command: (0x1401, 0),
    },
    Row {
        name: "write-words-m",
        title: "write 960 words of M",
        fault: 0,
        data: |fields| words(fields.device(Device::M, 160).number(2, 960)),
        command: (0x1401, 0),
    },
    Row {
        name: "write-bits-m",
        title: "write 3,584 bits of M",
        fault: 0,
        data: |fields| {
            let bits: Vec<bool> = (0..3584).map(|i| i * i % 7 < 3).collect();
            fields.device(Device::M, 160).number(2, 3584).bits(&bits)
        },
        command: (0x1401, 1),
    },
    Row {
        name: "random-bits",
        title: "188 random writes of bits",
        fault: 0,
        data: |fields| {
            (0..188).fold(fields.number(1, 188), |fields, i| {
                let device = [Device::M, Device::X, Device::B][i as usize % 3];
                fields.device(device, 37 * i).number(1, i % 2)
            })
        },
        command: (0x1402, 1),
    },
    Row {
        name: "refused",
        title: "refused: D outside its extent (C056)",
        fault: 0xC056,
        data: |fields| fields.device(Device::D, 16384).number(2, 1),
        command: (0x0401, 0),
    },
    Row {
        name: "unknown",
        title: "refused: unknown command (C059)",
        fault: 0xC059,
        data: |fields| fields,
        command: (0x0999, 0),
    },
];

/// Accesses of word points, far from one another.
fn accesses(fields: Fields, count: u32) -> Fields {
    (0..count).fold(fields, |fields, i| {
        let (device, number) = scattered(i);
        fields.device(device, number)
    })
}

fn settings(fields: Fields) -> Fields {
    (0..160).fold(fields.number(1, 160).number(1, 0), |fields, i| {
        let (device, number) = scattered(i);
        fields.device(device, number).number(2, 257 * i)
    })
}

fn scattered(i: u32) -> (Device, u32) {
    let device = [Device::D, Device::W, Device::ZR, Device::TN][i as usize % 4];
    (device, 73 * i)
}

fn words(fields: Fields) -> Fields {
    (0..960).fold(fields, |fields, i| fields.number(2, 61 * i % 65536))
}

impl Row {
    pub fn by_name(name: &str) -> Option<Row> {
        ROWS.into_iter().find(|row| row.name == name)
    }

    pub fn frame(&self, code: Code) -> Vec<u8> {
        let data = (self.data)(Fields::new(code)).bytes;
        Head::plain(code, self.command.0, self.command.1).frame(&data)
    }

    /// The frame that is served once before, if the row needs one.
    pub fn before(&self, code: Code) -> Option<Vec<u8>> {
        if self.name != "monitor" {
            return None;
        }
        let register = Row::by_name("register").expect("it is a row");
        Some(register.frame(code))
    }
}
