//! The comparison: lists are made from a seed, played by replay and answered by the Rust, and held against each
//! other answer by answer.
//!
//!     oracle compare [--seed N] [--calls N] [--replay PROGRAM] [--stop N] [--only tables|random|directory|bodies]
//!
//! Every call is counted as one of: the same; both 4 (both refuse by 4, which document 01 leaves out); an intended
//! difference, where replay must answer what docs/DIFFERENCES.md says; own (an answer about what a list keeps, which
//! the Rust is not asked); outside (the Rust cannot be asked, or document 01 leaves it out); a difference. A difference is
//! printed with the shortest list of calls that shows it; the run ends after `--stop` of them.
//! The bodies of frames, written and then read, come last, and are not counted in `--calls`.

use crate::answer::Answer;
use crate::calls::{self, Kept};
use crate::generate::{self, Case};
use crate::random::Random;
use std::collections::BTreeMap;
use std::io::Write;
use std::process::{Command, Stdio, exit};
use std::time::Instant;

const BATCH: usize = 20_000;

struct Options {
    seed: u64,
    calls: u64,
    replay: String,
    stop: usize,
    tables: bool,
    random: bool,
    directory: bool,
    bodies: bool,
}

#[derive(Default)]
struct Count {
    calls: u64,
    same: u64,
    own: u64,
    fours: u64,
    outside: u64,
    intended: u64,
    different: u64,
}

struct Comparison {
    options: Options,
    begun: Instant,
    kinds: BTreeMap<&'static str, Count>,
    intended: BTreeMap<&'static str, (u64, String)>,
    outside: BTreeMap<&'static str, u64>,
    found: Vec<String>,
    batch: Vec<Case>,
    lines: usize,
    calls: u64,
}

fn options(words: &[String]) -> Options {
    let replay = "target/bin/replay".into();
    let (tables, random, directory, bodies) = (true, true, false, true);
    let mut options = Options { seed: 1, calls: 1_400_000, replay, stop: 10, tables, random, directory, bodies };
    let mut words = words.iter();
    while let Some(word) = words.next() {
        let value = words.next().cloned().unwrap_or_default();
        let number = || value.parse().unwrap_or_else(|_| crate::stop(&format!("{word} takes a number")));
        match word.as_str() {
            "--seed" => options.seed = number(),
            "--calls" => options.calls = number(),
            "--stop" => options.stop = number() as usize,
            "--replay" => options.replay = value,
            "--only" if value == "directory" => (options.directory, options.bodies) = (true, false),
            "--only" => {
                (options.tables, options.random) = (value == "tables", value == "random");
                options.bodies = value == "bodies";
            }
            _ => crate::stop(&format!("{word}: --seed, --calls, --stop, --replay and --only are the options")),
        }
    }
    options
}

// ---- Playing

// What replay writes of a list.
fn played(replay: &str, list: &str) -> String {
    let child = Command::new(replay).stdin(Stdio::piped()).stdout(Stdio::piped()).spawn();
    let mut child = child.unwrap_or_else(|why| {
        crate::stop(&format!(
            "{replay} cannot be run ({why}): build it with 'tools/build replay', or name it with --replay"
        ))
    });
    let mut input = child.stdin.take().expect("a pipe");
    let text = list.to_string();
    let writer = std::thread::spawn(move || drop(input.write_all(text.as_bytes())));
    let output = child.wait_with_output().expect("replay's output");
    let _ = writer.join();
    let text = String::from_utf8_lossy(&output.stdout).into_owned();
    if let Some(line) = text.lines().last().filter(|line| line.contains(" cannot be read: ")) {
        crate::stop(&format!("a fault of the generator: replay says '{line}'"));
    }
    text
}

// The answers in what replay wrote, in the order of the calls. None where replay stopped.
fn answers<'a>(output: &'a str, calls: &[&String]) -> Vec<Option<&'a str>> {
    let mut rest = output;
    let mut found = Vec::new();
    for (i, call) in calls.iter().enumerate() {
        let Some(behind) = rest.strip_prefix(call.as_str()).and_then(|rest| rest.strip_prefix(" -> ")) else {
            found.push(None);
            continue;
        };
        let next = calls.get(i + 1).map(|next| format!("\n{next} -> "));
        let end = next.and_then(|next| behind.find(&next));
        let (answer, left) = match end {
            Some(end) => (&behind[..end], &behind[end + 1..]),
            None => (behind.trim_end_matches('\n'), ""),
        };
        found.push(Some(answer));
        rest = left;
    }
    found
}

fn list_of(calls: &[&String]) -> String {
    let mut list = String::new();
    for call in calls {
        list.push_str(call);
        list.push('\n');
    }
    list
}

// ---- Judging

#[derive(PartialEq, Eq)]
enum Verdict {
    Same,
    Own,
    SameFour,
    Outside(&'static str),
    Intended(&'static str),
    Different { rust: String, ours: String },
}

fn judged(oracle: Answer, ours: Option<&str>) -> Verdict {
    let shown = ours.unwrap_or("(replay stopped)").to_string();
    match oracle {
        Answer::Outside(why) => Verdict::Outside(why),
        Answer::Said(rust) if Some(rust.as_str()) == ours => {
            if rust == "refused 4" || rust.starts_with("refused 4:") {
                Verdict::SameFour
            } else {
                Verdict::Same
            }
        }
        Answer::Own(text) if Some(text.as_str()) == ours => Verdict::Own,
        Answer::Said(rust) | Answer::Own(rust) => Verdict::Different { rust, ours: shown },
        Answer::Differs { ours: meant, why, .. } if Some(meant.as_str()) == ours => Verdict::Intended(why),
        Answer::Differs { rust, ours: meant, .. } => {
            Verdict::Different { rust: format!("{rust} (intended here: {meant})"), ours: shown }
        }
    }
}

// The first difference of a list that is played alone.
fn first_difference(replay: &str, calls: &[&String]) -> Option<(usize, String, String)> {
    let output = played(replay, &list_of(calls));
    let mut kept = Kept::default();
    for (i, (call, ours)) in calls.iter().zip(answers(&output, calls)).enumerate() {
        if let Verdict::Different { rust, ours } = judged(calls::answer(&mut kept, call), ours) {
            return Some((i, rust, ours));
        }
    }
    None
}

// The shortest list that shows a difference: calls are left out, many and then one by one, while it shows.
fn shortened<'a>(replay: &str, calls: &[&'a String]) -> Vec<&'a String> {
    let mut list = calls.to_vec();
    let mut part = list.len();
    while part > 0 {
        let mut from = 0;
        while from < list.len() {
            let mut shorter = list.clone();
            shorter.drain(from..(from + part).min(list.len()));
            match first_difference(replay, &shorter) {
                Some((at, _, _)) => {
                    shorter.truncate(at + 1);
                    list = shorter;
                }
                None => from += part,
            }
        }
        part /= 2;
    }
    list
}

impl Comparison {
    // Whether as many differences are reported as the run is to report.
    fn is_over(&self) -> bool {
        self.found.len() >= self.options.stop
    }

    fn take(&mut self, case: Case) {
        if self.is_over() {
            return;
        }
        self.lines += case.calls.len();
        self.batch.push(case);
        if self.lines >= BATCH {
            self.play();
        }
    }

    // Plays the batch as one list, and judges each call.
    fn play(&mut self) {
        let batch = std::mem::take(&mut self.batch);
        self.lines = 0;
        let calls: Vec<&String> = batch.iter().flat_map(|case| &case.calls).collect();
        let output = played(&self.options.replay, &list_of(&calls));
        let ours = answers(&output, &calls);
        let mut kept = Kept::default();
        let mut place = 0;
        for case in &batch {
            let mut differs = false;
            for call in &case.calls {
                differs |= self.count(case.kind, call, judged(calls::answer(&mut kept, call), ours[place]));
                place += 1;
            }
            if differs && !self.is_over() {
                self.report(case);
            }
        }
        self.calls += calls.len() as u64;
        eprint!("\r{} calls, {} differences, {} s ", self.calls, self.differences(), self.begun.elapsed().as_secs());
    }

    // Counts a verdict, and says whether it is a difference.
    fn count(&mut self, kind: &'static str, call: &str, verdict: Verdict) -> bool {
        let count = self.kinds.entry(kind).or_default();
        count.calls += 1;
        match verdict {
            Verdict::Same => count.same += 1,
            Verdict::Own => count.own += 1,
            Verdict::SameFour => count.fours += 1,
            Verdict::Outside(why) => {
                count.outside += 1;
                *self.outside.entry(why).or_default() += 1;
            }
            Verdict::Intended(why) => {
                count.intended += 1;
                let entry = self.intended.entry(why).or_insert_with(|| (0, call.to_string()));
                entry.0 += 1;
            }
            Verdict::Different { .. } => {
                count.different += 1;
                return true;
            }
        }
        false
    }

    fn differences(&self) -> u64 {
        self.kinds.values().map(|count| count.different).sum()
    }

    // Writes a difference with the shortest list that shows it.
    fn report(&mut self, case: &Case) {
        let calls: Vec<&String> = case.calls.iter().collect();
        let Some((at, _, _)) = first_difference(&self.options.replay, &calls) else {
            self.found.push(format!("{}: a difference that the case alone does not show", case.kind));
            return;
        };
        let list = shortened(&self.options.replay, calls.get(..=at).unwrap_or(&calls));
        let Some((_, rust, ours)) = first_difference(&self.options.replay, &list) else {
            return;
        };
        let text = format!("{}:\n{}    the Rust: {rust}\n    replay:   {ours}", case.kind, list_of(&list));
        eprintln!("\n{text}");
        self.found.push(text);
    }

    fn summary(&self) {
        println!("seed {}, {} calls, {} s", self.options.seed, self.calls, self.begun.elapsed().as_secs());
        println!(
            "{:40} {:>9} {:>9} {:>9} {:>9} {:>9} {:>9} {:>9}",
            "kind", "calls", "same", "both 4", "intended", "own", "outside", "differ"
        );
        let mut all = Count::default();
        for (kind, count) in &self.kinds {
            row(kind, count);
            all.calls += count.calls;
            all.same += count.same;
            all.own += count.own;
            all.fours += count.fours;
            all.intended += count.intended;
            all.outside += count.outside;
            all.different += count.different;
        }
        row("all", &all);
        println!("intended, each answered as docs/DIFFERENCES.md says:");
        for (why, (times, _)) in &self.intended {
            println!("{times:>9}  {why}");
        }
        println!("outside:");
        for (why, times) in &self.outside {
            println!("{times:>9}  {why}");
        }
        let compared = all.same + all.fours + all.intended + all.different;
        println!(
            "{compared} calls answered by both, {} in the comparison's domain, {} differences",
            compared - all.fours,
            all.different
        );
    }
}

fn row(kind: &str, count: &Count) {
    let Count { calls, same, own, fours, outside, intended, different } = count;
    println!("{kind:40} {calls:>9} {same:>9} {fours:>9} {intended:>9} {own:>9} {outside:>9} {different:>9}");
}

/// Writes the random calls that a comparison makes.
pub fn list(words: &[String]) {
    let options = options(words);
    let mut random = Random::new(options.seed);
    let mut written = 0;
    let mut out = std::io::BufWriter::new(std::io::stdout().lock());
    while written < options.calls {
        let case = generate::random(&mut random);
        written += case.calls.len() as u64;
        if write!(out, "# {}\n{}\n", case.kind, case.calls.join("\n")).is_err() {
            return;
        }
    }
}

pub fn run(words: &[String]) {
    let mut comparison = Comparison {
        options: options(words),
        begun: Instant::now(),
        kinds: BTreeMap::new(),
        intended: BTreeMap::new(),
        outside: BTreeMap::new(),
        found: Vec::new(),
        batch: Vec::new(),
        lines: 0,
        calls: 0,
    };
    let directory = comparison.options.directory;
    if comparison.options.tables {
        let tables = if directory { generate::directory_tables } else { generate::tables };
        tables(&mut |case| comparison.take(case));
    }
    let mut random = Random::new(comparison.options.seed);
    while comparison.options.random
        && !comparison.is_over()
        && comparison.calls + (comparison.lines as u64) < comparison.options.calls
    {
        let case = if directory { generate::directory(&mut random) } else { generate::random(&mut random) };
        comparison.take(case);
    }
    if comparison.options.bodies {
        generate::bodies(comparison.options.seed, &mut |case| comparison.take(case));
        generate::readings(comparison.options.seed, &mut |case| comparison.take(case));
    }
    comparison.play();
    eprintln!();
    comparison.summary();
    if comparison.differences() > 0 {
        exit(1);
    }
}
