//! Times the codec's calls beside those of postgres-types, over the same values: `cargo run --release [WORD ..]` for
//! all rows, or for those whose names contain a word. It prints a row of a table for each, and ends with status 1 where
//! two checksums differ. With `--arrays` it prints what arrays of 10 to 1,000,000 elements take, which `plot` draws.
mod arrays;
mod ours;
mod peer;
mod rows;
mod turns;
mod values;

use std::process::ExitCode;

fn main() -> ExitCode {
    let words: Vec<String> = std::env::args().skip(1).collect();
    if words == ["--arrays"] {
        return if arrays::print() { ExitCode::SUCCESS } else { ExitCode::FAILURE };
    }
    let mut bench = turns::Bench::new(words);
    println!("| Call | ours, ns | postgres-types, ns | ratio | in pairs |\n|---|---|---|---|---|");
    rows::writing(&mut bench);
    rows::reading(&mut bench);
    rows::moments(&mut bench);
    rows::others(&mut bench);
    rows::messages(&mut bench);
    rows::copying(&mut bench);
    if bench.differing() { ExitCode::FAILURE } else { ExitCode::SUCCESS }
}
