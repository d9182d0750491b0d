//! Writes request frames.

use bench_server::{Code, Device};

const HEX: &[u8; 16] = b"0123456789ABCDEF";

/// Fields one behind the other, in a code.
pub struct Fields {
    code: Code,
    pub bytes: Vec<u8>,
}

impl Fields {
    pub fn new(code: Code) -> Fields {
        Fields {
            code,
            bytes: Vec::new(),
        }
    }

    /// A number of so many bytes.
    pub fn number(mut self, size: usize, value: u32) -> Fields {
        match self.code {
            Code::Binary => self.bytes.extend(&value.to_le_bytes()[..size]),
            Code::Ascii => {
                for i in (0..2 * size).rev() {
                    self.bytes.push(HEX[(value >> (4 * i) & 15) as usize]);
                }
            }
        }
        self
    }

    /// A device field; a number too large for it is cut.
    pub fn device(mut self, device: Device, number: u32) -> Fields {
        let (code, symbol, is_hexadecimal) = named(device);
        match self.code {
            Code::Binary => {
                self.bytes.extend(&number.to_le_bytes()[..3]);
                self.bytes.push(code);
            }
            Code::Ascii => {
                let digits = if is_hexadecimal {
                    format!("{:06X}", number % 0x100_0000)
                } else {
                    format!("{:06}", number % 1_000_000)
                };
                self.bytes.extend(symbol);
                self.bytes.extend(digits.as_bytes());
            }
        }
        self
    }

    /// Points in bits.
    pub fn bits(mut self, bits: &[bool]) -> Fields {
        match self.code {
            Code::Binary => self.bytes.extend(bits.chunks(2).map(|two| {
                let second = two.get(1).copied().unwrap_or(false);
                u8::from(two[0]) << 4 | u8::from(second)
            })),
            Code::Ascii => self
                .bytes
                .extend(bits.iter().map(|bit| b'0' + u8::from(*bit))),
        }
        self
    }

    pub fn bytes(mut self, bytes: &[u8]) -> Fields {
        self.bytes.extend(bytes);
        self
    }
}

/// Code, symbol and whether the numbers are hexadecimal.
fn named(device: Device) -> (u8, &'static [u8; 2], bool) {
    match device {
        Device::M => (0x90, b"M*", false),
        Device::SM => (0x91, b"SM", false),
        Device::L => (0x92, b"L*", false),
        Device::X => (0x9C, b"X*", true),
        Device::Y => (0x9D, b"Y*", true),
        Device::B => (0xA0, b"B*", true),
        Device::D => (0xA8, b"D*", false),
        Device::SD => (0xA9, b"SD", false),
        Device::ZR => (0xB0, b"ZR", true),
        Device::W => (0xB4, b"W*", true),
        Device::TS => (0xC1, b"TS", false),
        Device::TN => (0xC2, b"TN", false),
    }
}

/// What stands before a frame's data.
#[derive(Clone, Copy)]
pub struct Head {
    pub code: Code,
    /// the serial of a 4E frame
    pub serial: Option<u32>,
    /// network, PC, module I/O and station
    pub route: [u32; 4],
    pub command: u32,
    pub subcommand: u32,
}

impl Head {
    pub fn plain(code: Code, command: u32, subcommand: u32) -> Head {
        Head {
            code,
            serial: None,
            route: [0, 0xFF, 0x3FF, 0],
            command,
            subcommand,
        }
    }

    /// The frame with these data.
    pub fn frame(&self, data: &[u8]) -> Vec<u8> {
        let timed = Fields::new(self.code)
            .number(2, 0x10)
            .number(2, self.command)
            .number(2, self.subcommand)
            .bytes(data)
            .bytes;
        self.subheader()
            .number(1, self.route[0])
            .number(1, self.route[1])
            .number(2, self.route[2])
            .number(1, self.route[3])
            .number(2, timed.len() as u32)
            .bytes(&timed)
            .bytes
    }

    fn subheader(&self) -> Fields {
        let fields = Fields::new(self.code);
        match (self.code, self.serial) {
            (Code::Binary, None) => fields.bytes(&[0x50, 0]),
            (Code::Ascii, None) => fields.bytes(b"5000"),
            (Code::Binary, Some(serial)) => fields.bytes(&[0x54, 0]).number(2, serial).number(2, 0),
            (Code::Ascii, Some(serial)) => fields.bytes(b"5400").number(2, serial).number(2, 0),
        }
    }
}
