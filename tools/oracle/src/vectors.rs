//! The stored vectors: a sample of the compared calls with the Rust's answers, as lists of replay.
//!
//!     oracle vectors SEED FOLDER SCRIPTS     FOLDER is crates/replay, SCRIPTS tools/scripts
//!
//! Writes the lists data/rust_*.txt, names them in args, and puts the Rust's answers behind the worked-out ones in
//! stdout. Only calls are taken that the Rust answers and document 01 compares; replay has no part in it. The scripts
//! *.in of the transfer program are one of the lists.

use crate::answer::Answer;
use crate::calls::{self, Kept};
use crate::generate::{self, Case};
use crate::parties;
use crate::random::Random;
use std::fs;
use std::path::Path;

/// The first words of every stored list: what stands behind them in stdout is the Rust's.
const MARK: &str = "# Answers of the published Rust";

struct List {
    name: &'static str,
    about: &'static str,
    lines: Vec<String>,
    written: Vec<String>,
    kept: Kept,
}

/// A longer line is left out: replay reads it slowly.
const LONGEST: usize = 300;

impl List {
    fn new(name: &'static str, about: &'static str) -> Self {
        Self { name, about, lines: Vec::new(), written: Vec::new(), kept: Kept::default() }
    }

    fn line(&mut self, line: String, answer: Option<String>) {
        self.written.push(match answer {
            Some(answer) => format!("{line} -> {answer}"),
            None => line.clone(),
        });
        self.lines.push(line);
    }

    // The calls of a case that the Rust answers: the first ones, and one in so many of the others.
    fn take(&mut self, case: &Case, first: usize, one_in: u64, random: &mut Random) {
        let chosen = case.calls.iter().enumerate().filter(|(i, _)| *i < first || random.once_in(one_in));
        let chosen: Vec<&String> = chosen.map(|(_, call)| call).filter(|call| call.len() <= LONGEST).collect();
        if chosen.len() <= first {
            return;
        }
        self.line(format!("# {}", case.kind), None);
        for call in chosen {
            self.call(call);
        }
    }

    // A call, if the Rust answers it.
    fn call(&mut self, call: &str) {
        if let Answer::Said(answer) | Answer::Own(answer) = calls::answer(&mut self.kept, call) {
            self.line(call.into(), Some(answer));
        }
    }
}

// Which list a kind of case belongs to, and one in how many of its calls is stored.
fn place(kind: &str) -> Option<(usize, u64)> {
    Some(match kind {
        "elements" => (0, 60),
        "settings" | "frames" => (0, 8),
        "admission: types, causes" => (1, 1200),
        "admission: unknown fields, broadcast" => (1, 700),
        "admission: undecodable" => (1, 300),
        "admission: all types" => (1, 300),
        "matching" => (2, 25),
        "makers" => (3, 25),
        _ => return None,
    })
}

// The tables: a sample of each.
fn tables(lists: &mut [List], random: &mut Random) {
    generate::tables(&mut |case| {
        if let Some((list, one_in)) = place(case.kind) {
            lists[list].take(&case, 1, one_in, random);
        }
    });
}

// How many cases of a random kind are stored, in which list, and how long they may be.
const QUOTAS: [(&str, usize, usize, usize); 6] = [
    ("packing", 0, 2, 100),
    ("admission: random", 1, 2, 100),
    ("makers, build: random", 3, 4, 100),
    ("transfers", 4, 3, 110),
    ("flows with changed frames", 4, 8, 110),
    ("runs with damage", 5, 5, 60),
];

// How many lines a case is with its answers.
fn height(case: &Case) -> usize {
    let mut kept = Kept::default();
    case.calls.iter().map(|call| calls::answer(&mut kept, call).written().lines().count().max(1)).sum()
}

fn cases(lists: &mut [List], random: &mut Random) {
    let mut stored = [0; QUOTAS.len()];
    while stored.iter().zip(QUOTAS).any(|(count, quota)| *count < quota.2) {
        let case = generate::transfer(random);
        for (count, (kind, list, most, longest)) in stored.iter_mut().zip(QUOTAS) {
            if case.kind == kind && *count < most && height(&case) <= longest {
                *count += 1;
                lists[list].take(&case, 1, 1, random);
            }
        }
    }
}

// Sections: whole cases at the table's boundaries.
fn sections(lists: &mut [List], random: &mut Random) {
    generate::tables(&mut |case| {
        let is_boundary = ["is fill 0 ", "is fill 4096 ", "is fill 4097 ", "is fill 8193 "]
            .iter()
            .any(|length| case.calls.get(1).is_some_and(|call| call.contains(length)));
        let is_width = ["2 2 3", "1 1 1"].iter().any(|w| case.calls[0].ends_with(w));
        if case.kind == "sections" && is_boundary && is_width {
            lists[6].take(&case, 3, 6, random);
        }
    });
}

// The directory's tables: pages of one entry, of one full page, of one more, and of three pages; and one in so many
// of a call that takes a page.
fn directory_tables(list: &mut List, random: &mut Random) {
    generate::directory_tables(&mut |case| {
        let is_boundary = [1, 18, 19, 37].iter().any(|count| {
            let lent = format!("is fill {} 0 13", 13 * count);
            case.calls.get(1).is_some_and(|call| call.contains(&lent))
        });
        let is_width = case.calls[0].ends_with("2 2 3");
        let is_served =
            ["controlling monitor", "controlled control", "both"].iter().any(|of| case.calls[0].contains(of));
        match case.kind {
            "directory: pages" if is_boundary && is_width => list.take(&case, 3, 12, random),
            "directory: call" if is_served && random.once_in(150) => list.take(&case, 1, 1, random),
            _ => {}
        }
    });
}

// How many random cases of a directory are stored, and how long they may be.
const DIRECTORIES: [(&str, usize, usize); 3] =
    [("directory: pages, random", 2, 30), ("directory: calls", 1, 30), ("directory: calls with changed frames", 3, 30)];

// Random directories, whole but for what prints more than some entries of the store.
fn directories(list: &mut List, random: &mut Random) {
    let mut stored = [0; DIRECTORIES.len()];
    while stored.iter().zip(DIRECTORIES).any(|(count, quota)| *count < quota.1) {
        let mut case = generate::directory(random);
        case.calls.retain(|call| !call.starts_with("store octets"));
        let is_short = case.calls.iter().all(|call| call.len() <= LONGEST) && !case.calls.contains(&"file is".into());
        for (count, (kind, most, longest)) in stored.iter_mut().zip(DIRECTORIES) {
            if case.kind == kind && *count < most && is_short && height(&case) <= longest {
                *count += 1;
                case.calls.push("store octets 0 102".into());
                list.take(&case, 1, 1, random);
            }
        }
    }
}

// Bodies of frames: one in so many of each kind, and two lists of random ones.
fn bodies(list: &mut List, seed: u64, random: &mut Random) {
    generate::bodies(seed, &mut |case| {
        if case.kind != "bodies: random" || random.once_in(100) {
            list.take(&case, 1, 24, random);
        }
    });
}

// Bodies that are read: one in so many of each kind, and some lists of random ones.
fn readings(list: &mut List, seed: u64, random: &mut Random) {
    generate::readings(seed, &mut |case| {
        if !case.kind.starts_with("readings: random") || random.once_in(50) {
            list.take(&case, 1, 32, random);
        }
    });
}

// A script, played as the transfer program plays it: conventional widths, common address 1, Provider Controlled,
// budget 65535. What the Rust's machines print of it must be the file *.out.
fn script(list: &mut List, path: &Path) {
    let text = read(path);
    let (Some((ioa, nof, file, _)), Some(printed)) = (parties::script(&text), parties::transferred(&text)) else {
        crate::stop(&format!("{} is not a script that the Rust can be asked", path.display()));
    };
    if read(&path.with_extension("out")).trim_end() != printed {
        crate::stop(&format!("{}: its *.out is not what the Rust prints; tools/scripts/check --write", path.display()));
    }
    let name = path.file_stem().unwrap_or_default().to_string_lossy();
    let settings = format!("2 2 3 1 {ioa} {nof} controlled");
    let store = format!("store is fill {} 0 0", file.len());
    list.line(format!("# {name}"), None);
    list.call(&format!("script read \"{}\\n\"", text.trim_end()));
    for call in [&store, &format!("party new {settings}"), "party lines 65535", "store sum", "store octets 0 8"] {
        list.call(call);
    }
    for call in [&store, &format!("run 65535 {settings}"), "store sum"] {
        list.call(call);
    }
}

// The scripts of the transfer program, in the order of their names.
fn scripts(list: &mut List, folder: &Path) {
    let there = fs::read_dir(folder).unwrap_or_else(|why| crate::stop(&format!("{}: {why}", folder.display())));
    let mut paths: Vec<_> = there.filter_map(|entry| entry.ok().map(|entry| entry.path())).collect();
    paths.retain(|path| path.extension().is_some_and(|end| end == "in"));
    paths.sort();
    for path in paths {
        script(list, &path);
    }
}

fn lists(seed: u64, folder: &Path) -> Vec<List> {
    let mut lists = vec![
        List::new("rust_elements", "elements, widths, stations and what frames say of themselves"),
        List::new("rust_admission", "what a station admits"),
        List::new("rust_matching", "which frame answers which"),
        List::new("rust_making", "frames that are made"),
        List::new("rust_flows", "transfers, frame by frame, whole and with changed frames"),
        List::new("rust_runs", "whole runs with damage"),
        List::new("rust_sections", "sections and segments"),
    ];
    let mut random = Random::new(seed);
    tables(&mut lists, &mut random);
    cases(&mut lists, &mut random);
    sections(&mut lists, &mut random);
    let mut directory = List::new("rust_directory", "a directory's pages, and its call");
    directory_tables(&mut directory, &mut random);
    directories(&mut directory, &mut random);
    let mut written = List::new("rust_bodies", "bodies of frames");
    bodies(&mut written, seed, &mut random);
    let mut read = List::new("rust_readings", "bodies of frames, read");
    readings(&mut read, seed, &mut random);
    let mut played =
        List::new("rust_scripts", "the scripts tools/scripts/*.in, played as the transfer program plays them");
    scripts(&mut played, folder);
    lists.extend([directory, written, read, played]);
    lists
}

fn read(path: &Path) -> String {
    fs::read_to_string(path).unwrap_or_else(|why| crate::stop(&format!("{} cannot be read: {why}", path.display())))
}

fn store(path: &Path, text: &str) {
    if let Err(why) = fs::write(path, text) {
        crate::stop(&format!("{} cannot be written: {why}", path.display()));
    }
}

// The part of the program's stdout that is worked out by hand.
fn worked_out(stdout: &str) -> &str {
    stdout.split_once(MARK).map_or(stdout, |(front, _)| front)
}

pub fn write(words: &[String]) {
    let [seed, folder, scripts] = words else {
        crate::stop("vectors SEED FOLDER SCRIPTS");
    };
    let seed: u64 = seed.parse().unwrap_or_else(|_| crate::stop("the seed is a number"));
    let folder = Path::new(folder);
    let mut stdout = worked_out(&read(&folder.join("stdout"))).to_string();
    let kept = read(&folder.join("args"));
    let mut args: Vec<String> = kept.lines().filter(|name| !name.starts_with("rust_")).map(String::from).collect();
    let mut calls = 0;
    for list in lists(seed, Path::new(scripts)) {
        let head = format!("{MARK}, written by it (tools/vectors, seed {seed}): {}.", list.about);
        store(&folder.join("data").join(format!("{}.txt", list.name)), &format!("{head}\n{}\n", list.lines.join("\n")));
        stdout.push_str(&format!("{head}\n{}\n", list.written.join("\n")));
        args.push(format!("{}.txt", list.name));
        let count = list.lines.iter().filter(|line| !line.starts_with('#')).count();
        println!("{}: {count} calls", list.name);
        calls += count;
    }
    store(&folder.join("stdout"), &stdout);
    store(&folder.join("args"), &format!("{}\n", args.join("\n")));
    println!("{calls} calls in all, seed {seed}");
}
