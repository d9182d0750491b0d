//! Calls the archive through the wrapper: each layout, each refusal, and a registration that is kept.

use bench_server::{
    Bench, Code, Device, Extents, ImageBench, PackedBench, Refusal, Unit, REPLY_SPACE,
};

const REGISTER: &[u8] = b"500000FF03FF0000180010080100000100D*000003";
const MONITOR: &[u8] = b"500000FF03FF00000C001008020000";

fn extents() -> Extents {
    let mut extents = [0; 12];
    extents[Device::M.place() as usize] = 16;
    extents[Device::D.place() as usize] = 16;
    extents
}

fn points<U: Unit>(mut bench: Bench<U>) {
    assert_eq!(bench.set(Device::D, 3, 0x0102), Ok(()));
    assert_eq!(bench.read(Device::D, 3), Some(0x0102));
    assert_eq!(bench.read(Device::D, 16), None);
    assert_eq!(bench.read(Device::W, 0), None);
    assert_eq!(bench.set(Device::D, 16, 0), Err(Refusal::Outside));
    assert_eq!(bench.set(Device::M, 0, 2), Err(Refusal::TooWide));
    assert_eq!(bench.set(Device::M, 15, 1), Ok(()));
    assert_eq!(bench.read(Device::M, 15), Some(1));
}

#[test]
fn points_of_packed_tables() {
    let mut words = [0; 17];
    points(PackedBench::new(&mut words, extents()).unwrap());
    assert_eq!((words[0], words[4]), (0x8000, 0x0102));
}

#[test]
fn points_of_an_image() {
    let mut bytes = [0; 48];
    points(ImageBench::new(&mut bytes, extents()).unwrap());
    assert_eq!((bytes[15], bytes[22], bytes[23]), (1, 0x02, 0x01));
}

#[test]
fn storage_that_does_not_fit() {
    assert_eq!(PackedBench::needed(&extents()), Ok(17));
    assert_eq!(ImageBench::needed(&extents()), Ok(48));
    assert_eq!(
        PackedBench::new(&mut [0; 16], extents()).err(),
        Some(Refusal::NoRoom)
    );
    assert_eq!(
        ImageBench::new(&mut [0; 47], extents()).err(),
        Some(Refusal::NoRoom)
    );
    let mut large = extents();
    large[11] = 65537;
    assert_eq!(PackedBench::needed(&large), Err(Refusal::NoRoom));
}

#[test]
fn a_registration_is_kept() {
    let mut words = [0; 17];
    words[4] = 0x0102;
    let mut bench = PackedBench::new(&mut words, extents()).unwrap();
    let mut reply = [0xEE; REPLY_SPACE];
    let early = bench.take_frame(Code::Ascii, MONITOR, &mut reply);
    assert_eq!(early.fault.map(|fault| fault.number), Some(0xC05D));
    assert!(!bench.registration().is_registered());
    assert_eq!(
        bench.take_frame(Code::Ascii, REGISTER, &mut reply).fault,
        None
    );
    let words: Vec<_> = bench.registration().words().collect();
    assert_eq!(words.len(), 1);
    assert_eq!((words[0].device, words[0].number), (Device::D, 3));
    assert_eq!(bench.registration().doubles().count(), 0);
    let shown = bench.take_frame(Code::Ascii, MONITOR, &mut reply);
    assert_eq!(shown.fault, None);
    assert_eq!(&reply[..shown.length], b"D00000FF03FF00000800000102");
    assert!(reply[shown.length + 16..].iter().all(|byte| *byte == 0xEE));
}

#[test]
fn short_reply_space() {
    let mut words = [0; 17];
    let mut bench = PackedBench::new(&mut words, extents()).unwrap();
    let mut reply = [0xEE; REPLY_SPACE - 1];
    let answer = bench.take_frame(Code::Ascii, MONITOR, &mut reply);
    assert_eq!((answer.taken, answer.length), (0, 0));
    assert_eq!(
        answer.fault.map(|fault| (fault.number, fault.place)),
        Some((1, 0))
    );
    assert_eq!(reply, [0xEE; REPLY_SPACE - 1]);
}
