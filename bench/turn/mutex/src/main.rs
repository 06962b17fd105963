//! Turns and hand-overs a second of a Mutex round a small value, and the processor time by the wall time: with nothing done
//! under the lock, and with work of 200 ns.
use std::hint::black_box;
use std::sync::Mutex;
use std::thread;
use std::time::Instant;

/// The turns of all threads of a run together.
const TURNS: u64 = 4_000_000;

/// The work inside a turn, in nanoseconds, in the runs that have some.
const WORK: u64 = 200;

/// The rounds of work that are timed once, so that it is known how many a turn needs.
const TIMED_ROUNDS: u64 = 20_000_000;

unsafe extern "C" {
    /// The processor time of all threads, in microseconds.
    safe fn clock() -> i64;
}

#[derive(Default)]
struct Counter {
    count: u64,
    last: u64,
    hand_overs: u64,
    worked: u64,
}

/// Works for some rounds, each of which needs what the one before gave.
fn worked(start: u64, rounds: u64) -> u64 {
    (0..rounds).fold(start, |number, _| {
        number.wrapping_mul(6_364_136_223_846_793_005).wrapping_add(1)
    })
}

fn run(value: &Mutex<Counter>, thread: u64, turns: u64, rounds: u64) {
    for _ in 0..turns {
        let mut counter = value.lock().unwrap();
        counter.count += 1;
        if counter.last != thread {
            counter.last = thread;
            counter.hand_overs += 1;
        }
        counter.worked = worked(counter.worked, rounds);
    }
}

fn rounds_of_work() -> u64 {
    let start = Instant::now();
    black_box(worked(black_box(1), TIMED_ROUNDS));
    WORK * TIMED_ROUNDS / start.elapsed().as_nanos() as u64
}

/// Runs some threads, and prints how many turns and hand-overs there were a second, and the processor time in hundredths of the wall time.
fn measure(threads: u64, work: u64, rounds: u64) {
    let value = Mutex::new(Counter::default());
    let busy_before = clock();
    let start = Instant::now();
    thread::scope(|scope| {
        for thread in 0..threads {
            let value = &value;
            scope.spawn(move || run(value, thread, TURNS / threads, rounds));
        }
    });
    let nanos = start.elapsed().as_nanos() as u64;
    let busy = (clock() - busy_before) as u64 * 1000;
    let counter = value.into_inner().unwrap();
    let turns = counter.count * 1_000_000_000 / nanos;
    let hand_overs = counter.hand_overs * 1_000_000_000 / nanos;
    println!("mutex {work} {threads} {turns} {hand_overs} {}", busy * 100 / nanos);
}

fn main() {
    let rounds = rounds_of_work();
    for threads in [1, 2, 4, 8, 16] {
        measure(threads, 0, 0);
        measure(threads, WORK, rounds);
    }
}
