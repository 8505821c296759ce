//! Times the proved library beside the plain program, in one process. See run.
#[allow(dead_code)]
#[path = "plain.rs"]
mod plain;

use std::hint::black_box;
use std::time::Instant;

extern "C" {
    fn seat_many(part: *const u8, length: usize, copies: u8, times: u32) -> u8;
}

fn proved_seats(part: &[u8], copies: u8, times: u32) -> u8 {
    unsafe { seat_many(part.as_ptr(), part.len(), copies, times) }
}

/// The least time of some rounds, in nanoseconds for one of `times`.
fn time<F: FnMut()>(times: u32, mut work: F) -> f64 {
    let mut best = f64::MAX;
    for _ in 0..7 {
        let start = Instant::now();
        work();
        best = best.min(start.elapsed().as_nanos() as f64 / times as f64);
    }
    best
}

fn main() {
    let folder = std::env::args().nth(1).expect("the folder of the parts");
    let only = std::env::args().nth(2);
    let mut desk = plain::Desk::new();
    println!("part            copies  rows corners  events   looks   plain ns  proved ns  ratio  proved ns a look");
    for (name, copies, times) in [
        ("binary-1", 1, 100_000),
        ("binary-2", 1, 50_000),
        ("binary-3", 1, 20_000),
        ("binary-4", 1, 10_000),
        ("binary-5", 1, 5_000),
        ("binary-6", 1, 2_000),
        ("binary-7", 1, 1_000),
        ("binary-8", 1, 500),
        ("binary-9", 1, 300),
        ("eighth", 8, 300),
        ("path-3", 1, 20_000),
        ("path-5", 1, 1_000),
    ] {
        if only.as_deref().is_some_and(|o| o != name) {
            continue;
        }
        let part = std::fs::read(format!("{folder}/{name}.part")).expect(name);
        let parts = desk.seat_many(&part, copies, 1);
        let (rows, corners) = desk.used();
        let (events, looks) = (desk.effort.events, desk.effort.looks);
        assert_eq!(parts, proved_seats(&part, copies, 1), "{name}");
        let plain = time(times, || {
            black_box(desk.seat_many(black_box(&part), copies, times));
        });
        let proved = time(times, || {
            black_box(proved_seats(black_box(&part), copies, times));
        });
        println!(
            "{name:<15} {parts:>6} {rows:>5} {corners:>7} {events:>7} {looks:>7} {plain:>10.0} {proved:>10.0} {:>6.2} {:>8.1}",
            proved / plain,
            proved / looks as f64
        );
    }
}
