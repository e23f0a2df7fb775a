//! The published Rust, asked in the language of the test program `replay` (docs/REPLAY.md).
//!
//!     oracle answer [LIST...]     each call with the Rust's answer behind it; standard input without a list
//!     oracle transfer             plays the transfer script on standard input, as the program `transfer` prints it
//!     oracle table                document 01's table of sections, as the Rust gives it
//!     oracle list ...             the random calls that a comparison with these options makes, without the bodies
//!     oracle compare ...          the comparison (compare.rs)
//!     oracle vectors ...          the stored vectors (vectors.rs)

mod answer;
mod bodies;
mod calls;
mod compare;
mod directories;
mod generate;
mod machines;
mod parties;
mod random;
mod show;
mod stations;
mod values;
mod vectors;
mod words;

use std::io::{self, BufRead, Write};
use std::{env, fs, process};

fn stop(why: &str) -> ! {
    eprintln!("oracle: {why}");
    process::exit(2)
}

// Answers the calls of one list.
fn play(list: &str, out: &mut impl Write) -> io::Result<()> {
    let mut kept = calls::Kept::default();
    for line in list.lines() {
        if line.is_empty() || line.starts_with('#') {
            writeln!(out, "{line}")?;
        } else {
            writeln!(out, "{line} -> {}", calls::answer(&mut kept, line).written())?;
        }
    }
    Ok(())
}

fn answer(names: &[String]) {
    let mut out = io::BufWriter::new(io::stdout().lock());
    if names.is_empty() {
        let lines: Vec<String> = io::stdin().lock().lines().map_while(Result::ok).collect();
        let _ = play(&lines.join("\n"), &mut out);
    }
    for name in names {
        match fs::read_to_string(name) {
            Ok(list) => drop(play(&list, &mut out)),
            Err(why) => stop(&format!("{name} cannot be read: {why}")),
        }
    }
}

fn main() {
    let words: Vec<String> = env::args().skip(1).collect();
    let rest = words.get(1..).unwrap_or_default();
    match words.first().map(String::as_str) {
        Some("answer") => answer(rest),
        Some("transfer") => parties::transfer(),
        Some("table") => machines::table(),
        Some("list") => compare::list(rest),
        Some("compare") => compare::run(rest),
        Some("vectors") => vectors::write(rest),
        _ => stop("answer, transfer, table, list, compare or vectors?"),
    }
}
