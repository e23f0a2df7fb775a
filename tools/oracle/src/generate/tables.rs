//! Every value where there are few.

use super::{Case, ROLES, SELECTIONS, UNKNOWN, WIDTHS, broadcast, widths};

const TIME: &str = "59999 59 0 1 23 0 31 7 12 99";

/// A frame of each type, with what stands beside it.
pub const FRAMES: [(u8, &str, &str); 8] = [
    (120, "file_ready 100 7 5 0 0", ""),
    (121, "section_ready 100 7 1 5 0 0", ""),
    (122, "sc 100 7 1 1 0", ""),
    (123, "last_section 100 7 1 3 44", ""),
    (124, "ack 100 7 1 3 0", ""),
    (125, "segment 100 7 1 2", " beside 1 2"),
    (126, "directory 100 5", " beside 7 0 5 0 0 32 0 0 0 0 0 0 0"),
    (127, "query_log 100 7 0 0 0 0 0 0 0 0 0 0 1 2 1 0 3 1 4 5 6 7", ""),
];

// The frame that goes under a header of a type: of another type the select.
pub fn frame_of(kind: u8) -> (&'static str, &'static str) {
    let found = FRAMES.iter().find(|frame| frame.0 == kind).unwrap_or(&FRAMES[2]);
    (found.1, found.2)
}

// ---- Elements, widths, constants

fn ranges(case: &mut Case) {
    for value in 0..=255 {
        for flag in 0..=1 {
            case.call(format!("frq {value} {flag}"));
            case.call(format!("srq {value} {flag}"));
        }
        for flags in ["0 0 0", "1 0 0", "0 1 0", "0 0 1", "1 1 1"] {
            case.call(format!("sof {value} {flags}"));
        }
        for other in [0, 1, 15, 16, 255] {
            case.call(format!("scq {value} {other}"));
            case.call(format!("afq {other} {value}"));
        }
        case.call(format!("is_file_type {value}"));
        case.call(format!("is_receiver_side_type {value}"));
    }
    for value in [0, 1, 255, 256, 65535, 65536, 16_777_214, 16_777_215, 16_777_216, 4_294_967_295u32] {
        case.call(format!("lof {value}"));
    }
}

fn times(case: &mut Case) {
    let least = [0u16; 10];
    let most = [65535, 63, 1, 1, 31, 1, 31, 7, 15, 127];
    for base in [least, most] {
        for place in 0..10 {
            let last = if [2, 3, 5].contains(&place) { 1 } else { 255 };
            for value in 0..=last {
                let mut time = base;
                time[place] = value;
                let words: Vec<String> = time.iter().map(u16::to_string).collect();
                case.call(format!("time {}", words.join(" ")));
                case.call(format!("pack 13 65535 16777215 31 1 1 1 {}", words.join(" ")));
            }
        }
    }
}

fn constants(case: &mut Case) {
    for name in [
        "nof_len",
        "nos_len",
        "lof_len",
        "los_len",
        "sof_len",
        "time_len",
        "entry_len",
        "deactivate_file",
        "delete_file",
        "deactivate_section",
        "los_max",
        "max_segment",
        "max_asdu",
        "max_directory_files",
    ] {
        case.call(format!("constant {name}"));
    }
    for which in &UNKNOWN[1..] {
        case.call(format!("unknown_cause {which}"));
    }
}

fn sizes(case: &mut Case) {
    for cause in 0..=3 {
        for common in 0..=3 {
            for object in 0..=4 {
                for what in [
                    "new",
                    "is_right",
                    "originator_address",
                    "header_len",
                    "max_ioa",
                    "max_common_address",
                    "broadcast_common_address",
                    "max_segment",
                    "max_directory_files",
                ] {
                    case.call(format!("sizes {what} {cause} {common} {object}"));
                }
            }
        }
    }
}

fn sums(case: &mut Case) {
    for octet in 0..=255 {
        case.call(format!("checksum {octet}"));
        case.call(format!("checksum 255 {octet}"));
        case.call(format!("checksum fill 9216 {octet} 255"));
        case.call(format!("check_checksum {octet} 200 100"));
    }
    case.call("checksum");
    case.call("check_checksum 0");
    case.call("check_checksum 1");
}

pub fn elements(take: &mut dyn FnMut(Case)) {
    let mut case = Case::new("elements");
    ranges(&mut case);
    times(&mut case);
    constants(&mut case);
    sizes(&mut case);
    sums(&mut case);
    for kind in 0..=255 {
        for cause in [13, 43, 44, 45, 46, 47, 48] {
            for negative in 0..=1 {
                case.call(format!("is_mirror {kind} {cause} {negative} 0 1"));
            }
        }
    }
    take(case);
}

// ---- Stations

pub fn settings(take: &mut dyn FnMut(Case)) {
    let mut case = Case::new("settings");
    for selection in SELECTIONS {
        case.call(format!("selection count {selection}"));
        case.call(format!("selection uses_function {selection}"));
        for direction in ["monitor", "control", "both"] {
            case.call(format!("selection uses {selection} {direction}"));
            for flag in 0..=1 {
                case.call(format!("selection with {selection} {direction} {flag}"));
            }
        }
    }
    for role in ROLES {
        for flag in 0..=1 {
            case.call(format!("direction_for {role} {flag}"));
        }
        for selection in SELECTIONS {
            case.call(format!("station conventional {role} {selection} 12 3"));
            asked(&mut case);
            for w in WIDTHS {
                let org = if w[0] == 2 { 9 } else { 0 };
                case.call(format!("station new {role} {selection} 254 {org} {}", widths(w)));
                asked(&mut case);
                case.call("station with_address_sizes 2 2 3");
                case.call("station show");
            }
        }
    }
    take(case);
}

fn asked(case: &mut Case) {
    for what in ["show", "role", "selection", "addressing", "address_sizes"] {
        case.call(format!("station {what}"));
    }
    for role in ROLES {
        for flag in 0..=1 {
            case.call(format!("station serves {role} {flag}"));
        }
    }
}

// ---- Frames

pub fn frames(take: &mut dyn FnMut(Case)) {
    let mut case = Case::new("frames");
    let mut all: Vec<String> = FRAMES.iter().map(|frame| frame.1.to_string()).collect();
    for action in 0..=15 {
        all.push(format!("sc 100 7 1 {action} 0"));
        all.push(format!("ack 100 7 1 {action} 0"));
    }
    for cause in 0..=63 {
        all.push(format!("directory 100 {cause}"));
    }
    all.push("sc 4294967295 65535 255 15 15".into());
    for frame in all {
        for what in ["type_id", "cause", "is_receiver_side", "ioa"] {
            case.call(format!("frame {what} {frame}"));
        }
        case.call(format!("header_of 1 0 {frame}"));
        case.call(format!("header_of 65534 255 {frame}"));
    }
    take(case);
}

// ---- Admission

// One station, and every cause of every type about the file transfer's.
fn every_cause(take: &mut dyn FnMut(Case), role: &str, selection: &str, w: [u8; 3]) {
    let mut case = Case::new("admission: types, causes");
    case.call(format!("station new {role} {selection} 1 0 {}", widths(w)));
    for kind in 118..=129 {
        let (frame, beside) = frame_of(kind);
        for cause in 0..=63 {
            for negative in 0..=1 {
                case.call(format!("station on_asdu {kind} {cause} {negative} 0 5 none {frame}{beside}"));
            }
        }
    }
    for cause in 0..=63 {
        case.call(format!("station on_asdu 122 {cause} 0 0 5 none sc 100 7 1 0 0"));
        case.call(format!("station on_asdu 126 {cause} 0 0 5 none directory 100 3{}", FRAMES[6].2));
    }
    take(case);
}

// Every field unknown, of an address that is another station's and of the broadcast one.
fn every_unknown(take: &mut dyn FnMut(Case), role: &str, selection: &str, w: [u8; 3]) {
    let mut case = Case::new("admission: unknown fields, broadcast");
    case.call(format!("station new {role} {selection} 1 0 {}", widths(w)));
    for kind in 119..=128 {
        let (frame, beside) = frame_of(kind);
        for cause in [3, 5, 13, 43, 44, 45, 46, 47, 48] {
            for negative in 0..=1 {
                for unknown in UNKNOWN {
                    for ca in [0, 1, 2, broadcast(w) - 1, broadcast(w)] {
                        let header = format!("{kind} {cause} {negative} 0 {ca}");
                        case.call(format!("station on_asdu {header} {unknown} {frame}{beside}"));
                    }
                }
            }
        }
    }
    take(case);
}

// How each machine is made, handed a frame and looked at.
const MACHINES: [(&[&str], &str, &str); 4] = [
    (&["provider new 100 7"], "provider on_asdu", "provider show"),
    (&["receiver new 100 7"], "receiver on_asdu", "receiver show"),
    (&["receiver new 100 7"], "receiver on_asdu_mut", "receiver show"),
    (&["call new", "call start 100"], "call on_asdu", "call show"),
];

// Every field unknown, broadcast or not, in a frame of every type and in its mirror, to each machine made anew.
fn every_unknown_to_machines(take: &mut dyn FnMut(Case), role: &str, selection: &str, w: [u8; 3]) {
    let mut case = Case::new("machines: unknown fields, broadcast");
    case.call(format!("station new {role} {selection} 1 0 {}", widths(w)));
    case.call("file is fill 10 1 10");
    case.call("store is fill 17 9 9");
    for (kind, frame, beside) in FRAMES {
        for (cause, negative) in [(if kind == 126 { 5 } else { 13 }, 0), (45, 1)] {
            for unknown in UNKNOWN {
                for ca in [1, broadcast(w)] {
                    for (made, call, show) in MACHINES {
                        made.iter().for_each(|line| case.call(*line));
                        case.call(format!("{call} {kind} {cause} {negative} 0 {ca} {unknown} {frame}{beside}"));
                        case.call(show);
                    }
                }
            }
        }
    }
    take(case);
}

fn every_undecodable(take: &mut dyn FnMut(Case), role: &str, selection: &str, w: [u8; 3]) {
    let mut case = Case::new("admission: undecodable");
    case.call(format!("station new {role} {selection} 1 0 {}", widths(w)));
    for kind in 118..=129 {
        for cause in 0..=63 {
            for ca in [1, 10, 100] {
                case.call(format!("station on_asdu {kind} {cause} 0 0 {ca} none undecodable"));
            }
        }
    }
    take(case);
}

fn every_type(take: &mut dyn FnMut(Case), role: &str, selection: &str) {
    let mut case = Case::new("admission: all types");
    case.call(format!("station new {role} {selection} 1 0 2 2 3"));
    for kind in 0..=255 {
        let (frame, beside) = frame_of(kind);
        for cause in [5, 13, 44, 47] {
            for negative in 0..=1 {
                case.call(format!("station on_asdu {kind} {cause} {negative} 0 1 none {frame}{beside}"));
            }
        }
    }
    take(case);
}

pub fn admission(take: &mut dyn FnMut(Case)) {
    for role in ROLES {
        for selection in SELECTIONS {
            for w in WIDTHS {
                every_cause(take, role, selection, w);
            }
            for w in [[2, 2, 3], [1, 1, 1]] {
                every_unknown(take, role, selection, w);
                every_unknown_to_machines(take, role, selection, w);
            }
            every_undecodable(take, role, selection, [2, 2, 3]);
            every_type(take, role, selection);
        }
    }
}

// ---- Which frame answers which

// Requests, of every action.
fn sent() -> Vec<String> {
    let mut all = vec![
        format!("query_log 100 7 {TIME} {TIME}"),
        "file_ready 100 7 5 0 0".into(),
        "section_ready 100 7 1 5 0 0".into(),
        "last_section 100 7 1 3 44".into(),
        "segment 100 7 1 2".into(),
        "directory 100 5".into(),
    ];
    for action in 0..=15 {
        all.push(format!("sc 100 7 1 {action} 0"));
        all.push(format!("ack 100 7 1 {action} 0"));
    }
    all
}

// Answers of every kind and flag, with the object address, file and section that are asked for or others.
fn came() -> Vec<(u8, u8, String, &'static str)> {
    let mut all = Vec::new();
    for ioa in [100, 101] {
        for nof in [7, 8] {
            for nos in [1, 2] {
                for flag in 0..=1 {
                    all.push((121, 13, format!("section_ready {ioa} {nof} {nos} 5 0 {flag}"), ""));
                }
                all.push((123, 13, format!("last_section {ioa} {nof} {nos} 3 44"), ""));
                all.push((125, 13, format!("segment {ioa} {nof} {nos} 2"), " beside 1 2"));
            }
            for flag in 0..=1 {
                all.push((120, 13, format!("file_ready {ioa} {nof} 5 0 {flag}"), ""));
            }
        }
        for cause in [3, 5] {
            all.push((126, cause, format!("directory {ioa} {cause}"), FRAMES[6].2));
        }
        for request in ["sc", "ack"] {
            all.push((if request == "sc" { 122 } else { 124 }, 13, format!("{request} {ioa} 7 1 3 0"), ""));
        }
    }
    all
}

pub fn answering(take: &mut dyn FnMut(Case)) {
    for role in ROLES {
        let mut case = Case::new("matching");
        case.call(format!("station new {role} both 1 0 2 2 3"));
        for request in sent() {
            for (kind, cause, frame, beside) in came() {
                let header = format!("{kind} {cause} 0 0 1");
                case.call(format!("station on_answer {header} none {frame} sent {request}{beside}"));
                if role == ROLES[0] {
                    case.call(format!("answers {request} by {frame}"));
                    case.call(format!("answers_type {request} by {frame}"));
                }
            }
        }
        take(case);
    }
}

// ---- Qualifiers

// Every SCQ and AFQ, to a Provider that is made anew where one ends it.
fn requests(take: &mut dyn FnMut(Case), role: &str, selection: &str) {
    for nos in [0, 1, 2, 3, 255] {
        let mut case = Case::new("qualifiers: SCQ, AFQ");
        case.call(format!("station new {role} {selection} 1 0 2 2 3"));
        case.call("file is fill 5000 3 2");
        for octet in 0..=255 {
            let (action, error) = (octet & 15, octet >> 4);
            let cause = if action == 0 { 5 } else { 13 };
            for frame in [format!("122 {cause} 0 0 1 none sc"), "124 13 0 0 1 none ack".into()] {
                case.call("provider new 100 7");
                case.call(format!("provider on_asdu {frame} 100 7 {nos} {action} {error}"));
                case.call("provider show");
                case.call(format!("provider on_asdu {frame} 100 7 {nos} {action} {error}"));
            }
        }
        take(case);
    }
}

// Every LSQ with a right and a wrong sum, FRQ and SRQ, to a Receiver that awaits them.
fn closes(take: &mut dyn FnMut(Case), role: &str, selection: &str) {
    let mut case = Case::new("qualifiers: LSQ, FRQ, SRQ");
    case.call(format!("station new {role} {selection} 1 0 2 2 3"));
    case.call("store is fill 16 9 9");
    let open = |case: &mut Case| {
        case.call("receiver new 100 7");
        case.call("receiver start");
        case.call("receiver on_asdu 120 13 0 0 1 none file_ready 100 7 5 0 0");
        case.call("receiver on_asdu 121 13 0 0 1 none section_ready 100 7 1 5 0 0");
        case.call("receiver on_asdu 125 13 0 0 1 none segment 100 7 1 2 beside 200 100");
    };
    for value in 0..=255 {
        for sum in [44, 0, 45] {
            open(&mut case);
            case.call(format!("receiver on_asdu 123 13 0 0 1 none last_section 100 7 1 {value} {sum}"));
            case.call("receiver show");
            case.call("receiver received");
            case.call("store octets 0 16");
            case.call(format!("receiver on_asdu 123 13 0 0 1 none last_section 100 7 1 {value} {sum}"));
            case.call("receiver start");
            case.call("receiver awaited");
        }
        let (low, flag) = (value & 127, value >> 7);
        case.call("receiver new 100 7");
        case.call(format!("receiver on_asdu 120 13 0 0 1 none file_ready 100 7 {value} {low} {flag}"));
        case.call("receiver show");
        case.call(format!("receiver on_asdu 121 13 0 0 1 none section_ready 100 7 {value} 5 {low} {flag}"));
        case.call("receiver show");
        case.call("receiver length");
    }
    take(case);
}

pub fn qualifiers(take: &mut dyn FnMut(Case)) {
    requests(take, "controlled", "monitor");
    requests(take, "controlling", "control");
    closes(take, "controlling", "monitor");
    closes(take, "controlled", "control");
}

// ---- Sections: every boundary of the table's lengths that a program can lend

// Lengths about one and two sections and about the segments of every width.
fn lengths() -> Vec<u64> {
    let mut all = vec![0, 1, 2, 4095, 4096, 4097, 4098, 8191, 8192, 8193, 9215, 9216];
    for limit in 236..=240 {
        for times in [1, 2, 17, 18] {
            for length in [limit * times - 1, limit * times, limit * times + 1] {
                all.push(length);
                all.push(4096 + length);
            }
        }
    }
    all.retain(|length| *length <= 9216);
    all.sort_unstable();
    all.dedup();
    all
}

fn every_section(take: &mut dyn FnMut(Case), length: u64, w: [u8; 3], whole: bool) {
    let mut case = Case::new("sections");
    case.call(format!("station new controlled monitor 1 0 {}", widths(w)));
    case.call(format!("file is fill {length} 5 4"));
    case.call("provider new 100 7");
    case.call("provider show");
    case.call("provider announce");
    for nos in [0, 1, 2, 3, 4, 254, 255] {
        case.call(format!("provider on_asdu 122 13 0 0 1 none sc 100 7 {nos} 5 0"));
        case.call(format!("provider reply_frame section_ready {nos} 0"));
        case.call(format!("provider on_asdu 122 13 0 0 1 none sc 100 7 {nos} 6 0"));
        case.call(format!("provider reply_count section {nos}"));
        for index in indices(whole).into_iter().filter(|index| *index < replies(length, nos, w)) {
            case.call(format!("provider reply_frame section {nos} {index}"));
            case.call(format!("provider reply_payload section {nos} {index}"));
        }
        case.call(format!("provider on_asdu 124 13 0 0 1 none ack 100 7 {nos} 3 0"));
        case.call(format!("provider reply_frame file_close {nos} 0"));
        case.call(format!("provider reply_frame section_ready {} 0", nos.min(253) + 1));
        case.call(format!("provider on_asdu 124 13 0 0 1 none ack 100 7 {nos} 4 0"));
    }
    take(case);
}

// How many frames the sending of a section has.
fn replies(length: u64, nos: u64, [cause, common, object]: [u8; 3]) -> u64 {
    let before = nos.saturating_sub(1) * 4096;
    let octets = if nos == 0 { 0 } else { length.saturating_sub(before).min(4096) };
    let limit = 249 - 2 - u64::from(cause + common + object) - 4;
    octets.div_ceil(limit) + 1
}

// The indices of a reply that are asked for: those about its ends, or all.
fn indices(whole: bool) -> Vec<u64> {
    if whole { (0..20).collect() } else { vec![0, 1, 2, 16, 17, 18] }
}

pub fn sections(take: &mut dyn FnMut(Case)) {
    for w in WIDTHS {
        for length in lengths() {
            every_section(take, length, w, w == [2, 2, 3] || w == [1, 1, 1]);
        }
    }
}

// ---- Makers

pub fn makers(take: &mut dyn FnMut(Case)) {
    let mut case = Case::new("makers");
    for count in 0..=241 {
        case.call(format!("make segment 1 0 100 7 1 beside fill {count} 1 250"));
    }
    for octet in 0..=255 {
        let (action, error) = (octet & 15, octet >> 4);
        case.call(format!("make sc 1 0 100 7 1 {action} {error}"));
        case.call(format!("make ack 1 0 100 7 1 {action} {error}"));
        case.call(format!("make last_segment 1 0 100 7 1 {octet} {octet}"));
        case.call(format!("make file_ready 1 0 100 7 {octet} {} {}", octet & 127, octet >> 7));
        case.call(format!("make section_ready 1 0 100 7 {octet} 5 {} {}", octet & 127, octet >> 7));
        case.call(format!("make select_file 1 {octet} 100 7 {octet}"));
        case.call(format!("make call_file 1 {octet} 100 7 {octet}"));
        case.call(format!("make call_section 1 {octet} 100 7 {octet}"));
        case.call(format!("make call_directory 1 {octet} 100 7"));
    }
    for count in 0..=19 {
        for cause in [3, 5, 13] {
            case.call(format!("make directory 1 0 100 {cause} beside fill {} 0 0", 13 * count));
        }
    }
    for role in ROLES {
        for selection in SELECTIONS {
            for w in WIDTHS {
                case.call(format!("station new {role} {selection} 1 0 {}", widths(w)));
                for (_, frame, beside) in FRAMES {
                    case.call(format!("station build {frame}{beside}"));
                }
            }
        }
    }
    take(case);
}
