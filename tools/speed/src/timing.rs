//! Serves the frame of a row again and again.

use crate::pair::{Kind, Takes};
use crate::plain;
use crate::rows::{Row, EXTENTS};
use bench_server::{Bench, Code};
use std::hint::black_box;
use std::time::{Duration, Instant};

const BATCH: Duration = Duration::from_millis(30);

/// One of the two servers.
#[derive(Clone, Copy, PartialEq, Eq)]
pub enum Which {
    Bench,
    Plain,
}

/// Storage of the rows' extents, each point of it used.
fn storage<U: Kind>() -> Vec<U> {
    let needed = Bench::<U>::needed(&EXTENTS).expect("the extents are small");
    (0..needed as u64)
        .map(|i| U::from_number(i * 40503 % 65521))
        .collect()
}

/// Has a server over storage of one kind serve the row, as `f` says.
fn with_server<U: Kind, R>(which: Which, f: impl FnOnce(&mut dyn Takes) -> R) -> R {
    let mut units = storage::<U>();
    match which {
        Which::Bench => {
            let mut bench = Bench::new(&mut units, EXTENTS).expect("it fits");
            bench.write_flag = true;
            f(&mut bench)
        }
        Which::Plain => {
            let mut server = plain::Server::<U::Layout>::new(&mut units, EXTENTS).expect("it fits");
            server.write_flag = true;
            f(&mut server)
        }
    }
}

/// Serves the row's frame so many times.
fn serve(server: &mut dyn Takes, code: Code, frame: &[u8], reply: &mut [u8], times: u64) {
    for _ in 0..times {
        black_box(server.take(code, black_box(frame), black_box(reply)));
    }
}

/// Serves what the row needs before, and tests the answer to its frame.
fn prepare(server: &mut dyn Takes, row: Row, code: Code, frame: &[u8], reply: &mut [u8]) {
    if let Some(before) = row.before(code) {
        server.take(code, &before, reply);
    }
    let told = server.take(code, frame, reply);
    let fault = told.fault.map_or(0, |fault| fault.0);
    assert_eq!(fault, row.fault, "{}", row.name);
}

pub fn serve_row<U: Kind>(which: Which, row: Row, code: Code, times: u64) {
    let frame = row.frame(code);
    let mut reply = vec![0; 4096];
    with_server::<U, _>(which, |server| {
        prepare(server, row, code, &frame, &mut reply);
        serve(server, code, &frame, &mut reply, times);
    });
}

/// Frames a second.
pub struct Rates {
    pub bench: f64,
    pub plain: f64,
    /// of a batch of the bench to the next of the plain server
    pub ratio: f64,
}

/// The medians of so many batches of each server, in turn.
pub fn time_row<U: Kind>(row: Row, code: Code, batches: usize) -> Rates {
    let frame = row.frame(code);
    let mut reply = vec![0; 4096];
    with_server::<U, _>(Which::Bench, |bench| {
        with_server::<U, _>(Which::Plain, |plain| {
            prepare(bench, row, code, &frame, &mut reply);
            prepare(plain, row, code, &frame, &mut reply);
            let mut run = |server: &mut dyn Takes, times| {
                let start = Instant::now();
                serve(server, code, &frame, &mut reply, times);
                start.elapsed()
            };
            let bench_times = enough(|times| run(bench, times));
            let plain_times = enough(|times| run(plain, times));
            let rates: Vec<(f64, f64)> = (0..batches)
                .map(|_| {
                    let bench_rate = rate(bench_times, run(bench, bench_times));
                    (bench_rate, rate(plain_times, run(plain, plain_times)))
                })
                .collect();
            Rates {
                bench: median(rates.iter().map(|(bench, _)| *bench)),
                plain: median(rates.iter().map(|(_, plain)| *plain)),
                ratio: median(rates.iter().map(|(bench, plain)| bench / plain)),
            }
        })
    })
}

/// How many times fill a batch.
fn enough(mut run: impl FnMut(u64) -> Duration) -> u64 {
    let mut times = 1;
    while run(times) < BATCH {
        times *= 2;
    }
    times
}

fn rate(times: u64, took: Duration) -> f64 {
    times as f64 / took.as_secs_f64()
}

fn median(rates: impl Iterator<Item = f64>) -> f64 {
    let mut rates: Vec<f64> = rates.collect();
    rates.sort_by(f64::total_cmp);
    rates[rates.len() / 2]
}
