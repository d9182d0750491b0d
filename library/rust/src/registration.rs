use crate::device::Device;
use crate::raw;

/// A device and the number of the first point of an access.
#[derive(Clone, Copy, Debug, PartialEq, Eq, Hash)]
pub struct Access {
    /// The device.
    pub device: Device,
    /// The number of its first point.
    pub number: u32,
}

/// What a controller has registered to be monitored: accesses of one word, and then accesses of a double word.
#[derive(Clone, Debug)]
pub struct Registration(pub(crate) raw::Registration);

impl Registration {
    pub(crate) fn new() -> Registration {
        Registration(raw::Registration {
            registered: false,
            words: 0,
            doubles: 0,
            entries: [raw::Access {
                device: 0,
                number: 0,
            }; raw::ACCESSES],
        })
    }

    /// Whether anything is registered.
    pub fn is_registered(&self) -> bool {
        self.0.registered
    }

    /// The accesses of one word.
    pub fn words(&self) -> impl Iterator<Item = Access> + '_ {
        self.accesses(0, self.0.words)
    }

    /// The accesses of a double word.
    pub fn doubles(&self) -> impl Iterator<Item = Access> + '_ {
        self.accesses(self.0.words, self.0.doubles)
    }

    fn accesses(&self, from: u32, count: u32) -> impl Iterator<Item = Access> + '_ {
        let count = if self.0.registered { count } else { 0 };
        self.0.entries[from as usize..][..count as usize]
            .iter()
            .map(|entry| Access {
                device: Device::ALL[entry.device as usize],
                number: entry.number,
            })
    }
}
