//! The table of medians.

use crate::clock::cpu_time;
use std::hint::black_box;
use std::process::exit;
use std::time::Duration;

/// What a call works on: a book and an output buffer.
#[derive(Clone, PartialEq, Eq)]
pub struct Room {
    pub book: Vec<u8>,
    pub buffer: Vec<u8>,
}

impl Room {
    pub fn new(book: Vec<u8>, buffer: usize) -> Room {
        Room { book, buffer: vec![0; buffer] }
    }
}

pub struct Table {
    scale: usize,
}

impl Table {
    /// Prints the table's head. `scale` is in hundredths of the samples.
    pub fn new(scale: usize) -> Table {
        println!("{:<62}{:>8}{:>12}{:>12}{:>8}", "", "samples", "ours", "Rust's", "ratio");
        Table { scale }
    }

    /// One row: `ours` and `rusts` are called by turns, each in a fresh copy of the room, `calls` times in a sample. Both
    /// must give the same.
    pub fn row(
        &mut self,
        name: &str,
        (samples, calls): (usize, u32),
        fresh: Room,
        ours: impl Fn(&mut Room) -> u8,
        rusts: impl Fn(&mut Room) -> u8,
    ) {
        let (mut archive, mut reference) = (fresh.clone(), fresh.clone());
        if ours(&mut archive) != 0 || rusts(&mut reference) != 0 || archive != reference {
            eprintln!("{name}: refused, or the two differ; rust/check finds the case");
            exit(1);
        }
        let samples = (samples * self.scale / 100).max(5);
        let mut room = fresh.clone();
        let (mut our_times, mut rust_times) = (Vec::new(), Vec::new());
        for _ in 0..samples {
            our_times.push(timed(&fresh, &mut room, calls, &ours));
            rust_times.push(timed(&fresh, &mut room, calls, &rusts));
        }
        let (ours, rusts) = (median(our_times), median(rust_times));
        let ratio = ours.as_secs_f64() / rusts.as_secs_f64();
        println!("{name:<62}{samples:>8}{:>12}{:>12}{ratio:>8.2}", shown(ours, calls), shown(rusts, calls));
    }
}

/// The time of so many calls, in a room made afresh before.
fn timed(fresh: &Room, room: &mut Room, calls: u32, call: impl Fn(&mut Room) -> u8) -> Duration {
    room.book.copy_from_slice(&fresh.book);
    room.buffer.copy_from_slice(&fresh.buffer);
    let begun = cpu_time();
    for _ in 0..calls {
        black_box(call(black_box(room)));
    }
    cpu_time() - begun
}

fn median(mut times: Vec<Duration>) -> Duration {
    times.sort();
    times[times.len() / 2]
}

/// The time of one call.
fn shown(time: Duration, calls: u32) -> String {
    let nanos = time.as_nanos() as f64 / f64::from(calls);
    match nanos {
        n if n < 1_000.0 => format!("{n:.1} ns"),
        n if n < 1_000_000.0 => format!("{:.1} us", n / 1e3),
        n => format!("{:.2} ms", n / 1e6),
    }
}
