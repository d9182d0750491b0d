/// The twelve devices, in the order of their codes, which is that of extents and of storage.
#[derive(Clone, Copy, Debug, PartialEq, Eq, Hash)]
pub enum Device {
    /// Bits, numbered in decimal.
    M,
    /// Bits, numbered in decimal.
    SM,
    /// Bits, numbered in decimal.
    L,
    /// Bits, numbered in hexadecimal.
    X,
    /// Bits, numbered in hexadecimal.
    Y,
    /// Bits, numbered in hexadecimal.
    B,
    /// Words, numbered in decimal.
    D,
    /// Words, numbered in decimal.
    SD,
    /// Words, numbered in hexadecimal.
    ZR,
    /// Words, numbered in hexadecimal.
    W,
    /// Bits, numbered in decimal.
    TS,
    /// Words, numbered in decimal.
    TN,
}

impl Device {
    /// All of them, in their order.
    pub const ALL: [Device; 12] = [
        Device::M,
        Device::SM,
        Device::L,
        Device::X,
        Device::Y,
        Device::B,
        Device::D,
        Device::SD,
        Device::ZR,
        Device::W,
        Device::TS,
        Device::TN,
    ];

    /// Its place in that order, 0 to 11.
    pub fn place(self) -> u32 {
        self as u32
    }
}
