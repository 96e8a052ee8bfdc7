//! Times two programs on the same million random lines, in turn, and compares what they write.
//!
//! compare_lines FOLDER FIRST SECOND: each reads a file and writes a file, over few keys and over many. The best time of each is printed, and
//! the median over all rounds of the first's as a multiple of the second's in the same round.
use std::fs::{self, File};
use std::io::{BufWriter, Write};
use std::process::{Command, Stdio};
use std::time::{Duration, Instant};

const LINES: u64 = 1_000_000;
// Different keys of the lines.
const KEYS: [u64; 2] = [100, 100_000];
const ROUNDS: usize = 9;

struct Random(u64);

impl Random {
    fn below(&mut self, n: u64) -> u64 {
        self.0 = self.0.wrapping_mul(6364136223846793005).wrapping_add(1442695040888963407);
        (self.0 >> 33) % n
    }
}

fn write_lines(path: &str, keys: u64) {
    let mut out = BufWriter::new(File::create(path).unwrap());
    let mut random = Random(7);
    for _ in 0..LINES {
        let key = random.below(keys);
        match random.below(10) {
            0..=3 => writeln!(out, "insert a {key} {}", random.below(1_000_000)),
            4..=6 => writeln!(out, "get a {key}"),
            7..=8 => writeln!(out, "remove a {key}"),
            _ => writeln!(out, "len a"),
        }
        .unwrap();
    }
}

fn time(program: &str, input: &str, output: &str) -> Duration {
    let start = Instant::now();
    let status = Command::new(program)
        .stdin(Stdio::from(File::open(input).unwrap()))
        .stdout(Stdio::from(File::create(output).unwrap()))
        .status()
        .unwrap();
    assert!(status.success(), "{program}: {status}");
    start.elapsed()
}

// Times both programs in turn on lines of so many keys.
fn compare(folder: &str, programs: &[String], keys: u64) {
    let input = format!("{folder}/lines");
    write_lines(&input, keys);
    let outputs = [format!("{folder}/first"), format!("{folder}/second")];
    let mut best = [f64::MAX; 2];
    let mut ratios = Vec::new();
    for round in 0..ROUNDS {
        let mut taken = [0.0; 2];
        for i in [round % 2, 1 - round % 2] {
            taken[i] = time(&programs[i], &input, &outputs[i]).as_secs_f64() * 1000.0;
            best[i] = best[i].min(taken[i]);
        }
        ratios.push(taken[0] / taken[1]);
    }
    assert_eq!(fs::read(&outputs[0]).unwrap(), fs::read(&outputs[1]).unwrap());
    ratios.sort_by(f64::total_cmp);
    let [first, second] = best;
    println!("  {keys:<8} {first:>7.1} / {second:<7.1} ({:4.2})", ratios[ROUNDS / 2]);
}

fn main() {
    let args: Vec<String> = std::env::args().collect();
    println!("milliseconds for {LINES} lines, best of {ROUNDS} runs: the first / the second (the median of the first's as a multiple of the second's)");
    println!("over so many keys");
    for keys in KEYS {
        compare(&args[1], &args[2..4], keys);
    }
}
