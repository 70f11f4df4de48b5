//! An independent oracle for librvghash.a: a model of document 01, and of document 02's Asks 1 and 3 to 7, by other
//! methods. It is compared with the library on random input and at the limits.
//!
//! RVGHASH_LIB_DIR=folder-of-the-archive cargo run --release -- [--seed N] [--factor K] [--self-check | --write-cases FILE]
//!
//! It exits with 0 if there is no difference, with 1 at the first one, with 2 if it was called wrongly.

mod compare;
mod ffi;
mod lent;
mod model;
mod report;
mod rng;
mod self_check;

use report::Run;
use std::process::exit;
use std::time::{SystemTime, UNIX_EPOCH};

const USAGE: &str = "usage: oracle [--seed N] [--factor K] [--self-check | --write-cases FILE]";

struct Options {
    run: Run,
    only_self_check: bool,
    /// Where to write cases, in place of comparing.
    cases: Option<String>,
}

fn options(mut arguments: impl Iterator<Item = String>) -> Option<Options> {
    let clock = SystemTime::now().duration_since(UNIX_EPOCH).map_or(0, |d| d.as_nanos() as u64);
    let mut options = Options { run: Run { seed: clock, factor: 1 }, only_self_check: false, cases: None };
    while let Some(argument) = arguments.next() {
        match argument.as_str() {
            "--seed" => options.run.seed = arguments.next()?.parse().ok()?,
            "--factor" => options.run.factor = arguments.next()?.parse().ok().filter(|&k| k > 0)?,
            "--self-check" => options.only_self_check = true,
            "--write-cases" => options.cases = Some(arguments.next()?),
            _ => return None,
        }
    }
    Some(options)
}

fn main() {
    let options = options(std::env::args().skip(1)).unwrap_or_else(|| {
        eprintln!("{USAGE}");
        exit(2)
    });
    println!("seed {}, factor {}", options.run.seed, options.run.factor);
    if !self_check::run(options.run.seed) {
        exit(1);
    }
    if let Some(path) = options.cases {
        compare::write(&options.run, &path).unwrap_or_else(|e| {
            eprintln!("{path}: {e}");
            exit(2)
        });
    } else if !options.only_self_check {
        compare::run(&options.run);
    }
}
