//! Times the proved engine against one written in Rust, on the same work in the same process, and prints their ratios.

mod engine;
mod files;
mod inputs;
mod work;

use engine::Fault;
use std::hint::black_box;
use std::process::ExitCode;
use std::time::{Duration, Instant};

// The crate `bench`. A slice crosses as a pointer and then a length.
mod proved {
    unsafe extern "C" {
        fn lundzavar_steps(file: *const u8, length: usize, cells: *const u8, size: usize, rows: u32, count: u32) -> u64;
        fn lundzavar_jump(file: *const u8, length: usize, cells: *const u8, size: usize, rows: u32, count: u32) -> u64;
        fn lundzavar_jumps(file: *const u8, length: usize, cells: *const u8, size: usize, rows: u32, count: u32, seed: u64) -> u64;
        fn lundzavar_rework(file: *const u8, length: usize, cells: *const u8, size: usize, rows: u32, count: u32, seed: u64) -> u64;
        fn lundzavar_standing(file: *const u8, length: usize, cells: *const u8, size: usize, rows: u32, count: u32, seed: u64) -> u64;
        fn lundzavar_read(file: *const u8, length: usize, count: u32) -> u64;
        fn lundzavar_load(file: *const u8, length: usize, count: u32) -> u64;
        fn lundzavar_write(file: *const u8, length: usize, count: u32) -> u64;
    }

    // None of them asks anything of its arguments beyond their types, and slices are what they are declared with.
    pub fn steps(file: &[u8], cells: &[u8], rows: u32, count: u32) -> u64 {
        unsafe { lundzavar_steps(file.as_ptr(), file.len(), cells.as_ptr(), cells.len(), rows, count) }
    }

    pub fn jump(file: &[u8], cells: &[u8], rows: u32, count: u32) -> u64 {
        unsafe { lundzavar_jump(file.as_ptr(), file.len(), cells.as_ptr(), cells.len(), rows, count) }
    }

    pub fn jumps(file: &[u8], cells: &[u8], rows: u32, count: u32, seed: u64) -> u64 {
        unsafe { lundzavar_jumps(file.as_ptr(), file.len(), cells.as_ptr(), cells.len(), rows, count, seed) }
    }

    pub fn rework(file: &[u8], cells: &[u8], rows: u32, count: u32, seed: u64) -> u64 {
        unsafe { lundzavar_rework(file.as_ptr(), file.len(), cells.as_ptr(), cells.len(), rows, count, seed) }
    }

    pub fn standing(file: &[u8], cells: &[u8], rows: u32, count: u32, seed: u64) -> u64 {
        unsafe { lundzavar_standing(file.as_ptr(), file.len(), cells.as_ptr(), cells.len(), rows, count, seed) }
    }

    pub fn read(file: &[u8], count: u32) -> u64 {
        unsafe { lundzavar_read(file.as_ptr(), file.len(), count) }
    }

    pub fn load(file: &[u8], count: u32) -> u64 {
        unsafe { lundzavar_load(file.as_ptr(), file.len(), count) }
    }

    pub fn write(file: &[u8], count: u32) -> u64 {
        unsafe { lundzavar_write(file.as_ptr(), file.len(), count) }
    }
}

/// What the proved engine answers in place of a checksum.
const REFUSED: u64 = 0;

fn answered(sum: Result<u64, Fault>) -> u64 {
    sum.unwrap_or(REFUSED)
}

/// What a piece of work is given.
struct Input {
    file: Vec<u8>,
    cells: Vec<u8>,
    rows: u32,
    seed: u64,
}

impl Input {
    fn new(rows: u32, seed: u64) -> Input {
        Input { file: inputs::drawing(seed), cells: inputs::readings(rows, seed + 1), rows, seed: seed + 2 }
    }
}

/// A piece of work, done so often by the proved engine and by the Rust one.
struct Row {
    name: &'static str,
    count: u32,
    proved: fn(&Input, u32) -> u64,
    rust: fn(&Input, u32) -> u64,
}

const ROWS: [Row; 8] = [
    Row {
        name: "jump from cycle 0 to the last",
        count: 4,
        proved: |i, n| proved::jump(&i.file, &i.cells, i.rows, n),
        rust: |i, n| answered(work::jump(&i.file, &i.cells, i.rows, n)),
    },
    Row {
        name: "steps, every block shown at each",
        count: 2,
        proved: |i, n| proved::steps(&i.file, &i.cells, i.rows, n),
        rust: |i, n| answered(work::steps(&i.file, &i.cells, i.rows, n)),
    },
    Row {
        name: "jumps to random cycles, table of 128",
        count: 500,
        proved: |i, n| proved::jumps(&i.file, &i.cells, i.rows, n, i.seed),
        rust: |i, n| answered(work::jumps(&i.file, &i.cells, i.rows, n, i.seed)),
    },
    Row {
        name: "writes and taking back, with rework",
        count: 4,
        proved: |i, n| proved::rework(&i.file, &i.cells, i.rows, n, i.seed),
        rust: |i, n| answered(work::rework(&i.file, &i.cells, i.rows, n, i.seed)),
    },
    Row {
        name: "jump over 1,024 standing writes",
        count: 4,
        proved: |i, n| proved::standing(&i.file, &i.cells, i.rows, n, i.seed),
        rust: |i, n| answered(work::standing(&i.file, &i.cells, i.rows, n, i.seed)),
    },
    Row {
        name: "reading a file",
        count: 400,
        proved: |i, n| proved::read(&i.file, n),
        rust: |i, n| answered(work::read(&i.file, n)),
    },
    Row {
        name: "loading a file",
        count: 200,
        proved: |i, n| proved::load(&i.file, n),
        rust: |i, n| answered(work::load_often(&i.file, n)),
    },
    Row {
        name: "writing a file",
        count: 400,
        proved: |i, n| proved::write(&i.file, n),
        rust: |i, n| answered(work::write(&i.file, n)),
    },
];

/// How many pairs of runs a ratio is the median of.
const PAIRS: usize = 31;

fn timed(work: fn(&Input, u32) -> u64, input: &Input, count: u32) -> (Duration, u64) {
    let start = Instant::now();
    let sum = black_box(work(black_box(input), black_box(count)));
    (start.elapsed(), sum)
}

/// Short and damaged inputs, on which both have to answer alike as well.
fn odd_inputs() -> Vec<Input> {
    let mut odd = vec![Input::new(1, 7), Input::new(33, 8), Input::new(100, 9)];
    for byte in [0, 1, 2, 3, 5, 40, 200, 500] {
        let mut damaged = Input::new(20, 10);
        damaged.file[byte] ^= 0x11;
        odd.push(damaged);
        let mut short = Input::new(20, 11);
        short.file.truncate(byte);
        odd.push(short);
    }
    let mut long = Input::new(20, 12);
    long.file.push(0);
    odd.push(long);
    for (rows, size) in [(0, 0), (20, 19 * 32), (4097, 4097 * 32)] {
        let mut other = Input::new(20, 13);
        other.rows = rows;
        other.cells.resize(size, 0);
        odd.push(other);
    }
    let mut infinite = Input::new(20, 14);
    infinite.cells[10 * 32 + 8..][..4].copy_from_slice(&f32::INFINITY.to_bits().to_le_bytes());
    odd.push(infinite);
    odd
}

/// The median of the ratios of runs in turn, or none where the two answered differently.
fn ratio(row: &Row, input: &Input) -> Option<f64> {
    let mut ratios = Vec::new();
    for pair in 0..=PAIRS {
        let (proved, rust) = if pair % 2 == 0 {
            let proved = timed(row.proved, input, row.count);
            (proved, timed(row.rust, input, row.count))
        } else {
            let rust = timed(row.rust, input, row.count);
            (timed(row.proved, input, row.count), rust)
        };
        if proved.1 != rust.1 || proved.1 == REFUSED {
            return None;
        }
        // The first pair only warms the memory up.
        if pair > 0 {
            ratios.push(proved.0.as_secs_f64() / rust.0.as_secs_f64());
        }
    }
    ratios.sort_by(f64::total_cmp);
    Some(ratios[PAIRS / 2])
}

fn main() -> ExitCode {
    let input = Input::new(4096, 1);
    let odd = odd_inputs();
    let mut alike = true;
    println!("{:<40} {:>11}", "the proved engine's time in Rust's", "ratio");
    for row in &ROWS {
        let same = odd.iter().all(|i| (row.proved)(i, 2) == (row.rust)(i, 2));
        match ratio(row, &input) {
            Some(ratio) if same => println!("{:<40} {ratio:>11.2}", row.name),
            _ => {
                alike = false;
                println!("{:<40} {:>11}", row.name, "NOT ALIKE");
            }
        }
    }
    if alike { ExitCode::SUCCESS } else { ExitCode::FAILURE }
}
