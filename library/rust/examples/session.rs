//! A bench with 64 relays M and 16 registers D over packed tables: sets D2, answers a controller that reads it in both
//! codes, and lets it write for a time.

use bench_server::{Code, Device, PackedBench, Refusal, REPLY_SPACE};

fn main() -> Result<(), Refusal> {
    let mut extents = [0; 12];
    extents[Device::M.place() as usize] = 64;
    extents[Device::D.place() as usize] = 16;
    let mut words = vec![0; PackedBench::needed(&extents)?];
    let mut bench = PackedBench::new(&mut words, extents)?;
    bench.set(Device::D, 2, 0x1234)?;

    let mut reply = [0; REPLY_SPACE];
    let binary =
        b"\x50\x00\x00\xFF\xFF\x03\x00\x0C\x00\x10\x00\x01\x04\x00\x00\x02\x00\x00\xA8\x01\x00";
    let answer = bench.take_frame(Code::Binary, binary, &mut reply);
    println!(
        "binary: taken {}, reply {:02X?}",
        answer.taken,
        &reply[..answer.length]
    );

    let read = b"500000FF03FF000018001004010000D*0000020001";
    let answer = bench.take_frame(Code::Ascii, read, &mut reply);
    println!(
        "ASCII:  taken {}, reply {}",
        answer.taken,
        String::from_utf8_lossy(&reply[..answer.length])
    );

    let write = b"500000FF03FF00001C001014010000D*00000200010007";
    let answer = bench.take_frame(Code::Ascii, write, &mut reply);
    println!(
        "a write with the flag off: fault {:04X?}",
        answer.fault.map(|fault| fault.number)
    );
    bench.write_flag = true;
    let answer = bench.take_frame(Code::Ascii, write, &mut reply);
    println!(
        "with the flag on: fault {:?}, D2 {:?}",
        answer.fault,
        bench.read(Device::D, 2)
    );
    Ok(())
}
