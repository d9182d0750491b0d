//! Compares the two servers on random frames.

use crate::guessed;
use crate::pair::{Kind, Takes, Told};
use crate::plain;
use crate::random::Random;
use bench_server::{Bench, Code, Device, Extents};
use std::collections::BTreeMap;

/// How many frames met each fault, 0 being none.
pub type Tally = BTreeMap<u16, usize>;

const FRAMES_PER_BENCH: usize = 40;

/// Runs so many frames through both servers, over benches of random extents and storage. Tells the first difference.
pub fn check(frames: usize, seed: u64) -> Result<Tally, String> {
    let mut random = Random::new(seed);
    let mut tally = Tally::new();
    let mut left = frames;
    while left > 0 {
        let count = left.min(FRAMES_PER_BENCH);
        if random.once_in(2) {
            check_bench::<u16>(&mut random, &mut tally, count)?;
        } else {
            check_bench::<u8>(&mut random, &mut tally, count)?;
        }
        left -= count;
    }
    Ok(tally)
}

fn random_extents(random: &mut Random) -> Extents {
    let mut extents = [0; 12];
    for extent in &mut extents {
        *extent = match random.below(10) {
            0..=1 => 0,
            2..=5 => random.within(1, 100),
            6..=8 => random.within(100, 1200),
            _ => random.within(3000, 5000),
        };
    }
    if random.once_in(60) {
        extents[random.below(12) as usize] = random.pick(&[65536, 65535, 20000]);
    }
    extents
}

fn check_bench<U: Kind>(
    random: &mut Random,
    tally: &mut Tally,
    frames: usize,
) -> Result<(), String> {
    let extents = random_extents(random);
    let needed = Bench::<U>::needed(&extents).map_err(|error| error.to_string())?;
    let spare = random.below(4) as usize;
    let mut units: Vec<U> = (0..needed + spare)
        .map(|_| U::from_number(random.next()))
        .collect();
    let mut plain_units = units.clone();
    if needed > 0 {
        let few = &mut units[..needed - 1];
        let short = Bench::new(few, extents).is_ok();
        let plain_short = plain::Server::<U::Layout>::new(&mut plain_units[..needed - 1], extents);
        if short || plain_short.is_some() {
            return Err(format!(
                "{} of {extents:?}: taken over one unit too few",
                U::NAME
            ));
        }
    }
    let mut bench = Bench::new(&mut units, extents).map_err(|error| error.to_string())?;
    let mut server = plain::Server::<U::Layout>::new(&mut plain_units, extents)
        .ok_or_else(|| format!("{} of {extents:?}: the plain server is refused", U::NAME))?;
    bench.write_flag = !random.once_in(4);
    for _ in 0..frames {
        let code = random.pick(&[Code::Binary, Code::Ascii]);
        let frame = guessed::frame(random, code, &extents);
        server.write_flag = bench.write_flag;
        compare_frame(random, tally, &mut bench, &mut server, code, &frame)
            .map_err(|what| format!("{} of {extents:?}: {what}\n{code:?} {frame:02X?}", U::NAME))?;
        if random.once_in(3) {
            compare_point(random, &mut bench, &mut server)
                .map_err(|what| format!("{} of {extents:?}: {what}", U::NAME))?;
        }
        if random.once_in(20) {
            bench.write_flag = !bench.write_flag;
        }
    }
    Ok(())
}

/// Answers, reply spaces, storage and registrations.
fn compare_frame<U: Kind>(
    random: &mut Random,
    tally: &mut Tally,
    bench: &mut Bench<U>,
    server: &mut plain::Server<U::Layout>,
    code: Code,
    frame: &[u8],
) -> Result<(), String> {
    let space = match random.below(40) {
        0 => random.below(4096),
        1 => 4095,
        2 => 4096,
        _ => 4096 + random.below(60),
    };
    let fill = random.byte();
    let mut reply = vec![fill; space as usize];
    let mut plain_reply = reply.clone();
    let told: Told = bench.take(code, frame, &mut reply);
    let plain_told = server.take(code, frame, &mut plain_reply);
    *tally
        .entry(told.fault.map_or(0, |fault| fault.0))
        .or_default() += 1;
    if told != plain_told {
        return Err(format!("bench {told:?}, plain {plain_told:?}"));
    }
    if reply != plain_reply {
        let place = reply.iter().zip(&plain_reply).position(|(a, b)| a != b);
        return Err(format!("replies differ at {place:?}"));
    }
    if bench.units() != server.memory().units() {
        return Err("storage differs".to_string());
    }
    compare_registered(bench, server)
}

fn compare_registered<U: Kind>(
    bench: &Bench<U>,
    server: &plain::Server<U::Layout>,
) -> Result<(), String> {
    let registration = bench.registration();
    let Some(list) = server.registered() else {
        return if registration.is_registered() {
            Err("only the bench has a registration".to_string())
        } else {
            Ok(())
        };
    };
    let words = registration.words().count();
    let same = registration.is_registered()
        && words == list.words
        && registration
            .words()
            .chain(registration.doubles())
            .map(|access| (access.device.place() as usize, access.number))
            .eq(list.accesses.iter().map(|a| (a.device, a.number)));
    if same {
        Ok(())
    } else {
        Err(format!("registrations differ: {list:?}"))
    }
}

/// A setting or a reading of a point.
fn compare_point<U: Kind>(
    random: &mut Random,
    bench: &mut Bench<U>,
    server: &mut plain::Server<U::Layout>,
) -> Result<(), String> {
    let device = random.pick(&Device::ALL);
    let place = device.place() as usize;
    let extent = bench.extents()[place];
    let number = match random.below(8) {
        0 => extent,
        1 => random.next() as u32,
        _ => random.below(extent.max(1)),
    };
    if random.once_in(2) {
        let value = random.pick(&[0, 1, 2, 65535]);
        let told = bench.set(device, number, value).map_err(|r| r.number());
        let plain_told = server.memory_mut().set(place, number, value);
        if told != plain_told || bench.units() != server.memory().units() {
            return Err(format!(
                "set {device:?}{number} {value}: {told:?}, {plain_told:?}"
            ));
        }
    }
    let told = bench.read(device, number);
    let plain_told = server.memory().read(place, number);
    if told != plain_told {
        return Err(format!("read {device:?}{number}: {told:?}, {plain_told:?}"));
    }
    Ok(())
}
