//! Times the proved closing beside a plain one in Rust, over the same vocabularies.
mod plain;
mod vocabulary;

use plain::Relations;
use std::hint::black_box;
use std::process::ExitCode;
use std::time::Instant;
use vocabulary::{Axiom, CLASSES, PROPERTIES};

const SEEDS: [u64; 6] = [1, 2, 3, 5, 8, 13];

/// Closings in one timing.
const ROUNDS: u32 = 2_000;

/// Timings of each closing, of which the fastest counts.
const TIMINGS: usize = 9;

extern "C" {
    fn close_once(classes: u8, properties: u8, bytes: *const u8, len: usize) -> u32;
    fn close_times(classes: u8, properties: u8, bytes: *const u8, len: usize, times: u32) -> u32;
    fn close_digest(classes: u8, properties: u8, bytes: *const u8, len: usize) -> u32;
}

/// A vocabulary as the proved closing takes it, four bytes to an axiom.
struct Proved {
    bytes: Vec<u8>,
}

impl Proved {
    fn new(axioms: &[Axiom]) -> Proved {
        const TRUST: u8 = 50;
        let four = |a: &Axiom| [a.kind as u8, a.left, a.right, TRUST];
        Proved {
            bytes: axioms.iter().flat_map(four).collect(),
        }
    }

    // SAFETY, of each: the bytes are alive during the call, which only reads them.

    fn empty_names(&self) -> u32 {
        let (bytes, len) = (self.bytes.as_ptr(), self.bytes.len());
        unsafe { close_once(CLASSES as u8, PROPERTIES as u8, bytes, len) }
    }

    fn times(&self, times: u32) -> u32 {
        let (bytes, len) = (self.bytes.as_ptr(), self.bytes.len());
        unsafe { close_times(CLASSES as u8, PROPERTIES as u8, bytes, len, times) }
    }

    fn digest(&self) -> u32 {
        let (bytes, len) = (self.bytes.as_ptr(), self.bytes.len());
        unsafe { close_digest(CLASSES as u8, PROPERTIES as u8, bytes, len) }
    }
}

/// What `close_times` does, by the plain closing.
fn plain_times(axioms: &[Axiom], times: u32) -> u32 {
    (0..times).fold(0, |sum: u32, round| {
        let closed = Relations::close(black_box(axioms), CLASSES, PROPERTIES);
        let cell = closed.pdisinv[(round % 64) as usize] >> (round / 64 % 64) & 1;
        sum.wrapping_add(closed.empty_names())
            .wrapping_add(cell as u32)
    })
}

fn micros(work: impl Fn(u32) -> u32) -> f64 {
    let start = Instant::now();
    black_box(work(black_box(ROUNDS)));
    start.elapsed().as_secs_f64() * 1e6 / f64::from(ROUNDS)
}

/// Microseconds of one closing by each, the fastest of several timings that take turns.
fn race(proved: &Proved, axioms: &[Axiom]) -> (f64, f64) {
    (0..TIMINGS).fold((f64::INFINITY, f64::INFINITY), |(ours, rust), _| {
        let ours = ours.min(micros(|times| proved.times(times)));
        let rust = rust.min(micros(|times| plain_times(axioms, times)));
        (ours, rust)
    })
}

/// Whether both find as many empty names, and the same relations.
fn agree(proved: &Proved, axioms: &[Axiom]) -> bool {
    let closed = Relations::close(axioms, CLASSES, PROPERTIES);
    proved.empty_names() == closed.empty_names()
        && proved.digest() == closed.digest()
        && proved.times(64) == plain_times(axioms, 64)
}

fn main() -> ExitCode {
    let vocabularies = SEEDS.map(|seed| (seed, vocabulary::generated(seed)));
    for (seed, axioms) in &vocabularies {
        if !agree(&Proved::new(axioms), axioms) {
            eprintln!("seed {seed}: the two closings differ");
            return ExitCode::FAILURE;
        }
    }
    println!("seed  empty  proved us  Rust us  ratio");
    let mut ratios = Vec::new();
    for (seed, axioms) in &vocabularies {
        let empty = Relations::close(axioms, CLASSES, PROPERTIES).empty_names();
        let (ours, rust) = race(&Proved::new(axioms), axioms);
        let ratio = ours / rust;
        println!("{seed:>4}  {empty:>5}  {ours:>9.2}  {rust:>7.2}  {ratio:>5.2}");
        ratios.push(ratio);
    }
    ratios.sort_by(f64::total_cmp);
    println!("median ratio {:.2}", ratios[ratios.len() / 2]);
    ExitCode::SUCCESS
}
