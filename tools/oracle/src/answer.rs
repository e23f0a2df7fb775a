//! What the oracle says to a call.

#[derive(Debug, Clone, PartialEq, Eq)]
pub enum Answer {
    /// The Rust's answer, in the words of replay.
    Said(String),
    /// An answer of the oracle's own, about what a list keeps: a buffer, or that a record is made.
    Own(String),
    /// The Rust's answer differs by intention. `ours` is what docs/DIFFERENCES.md says that replay answers.
    Differs { rust: String, ours: String, why: &'static str },
    /// The Rust cannot be asked this, or document 01 leaves it out of the comparison.
    Outside(&'static str),
}

impl Answer {
    pub fn written(&self) -> String {
        match self {
            Self::Said(text) | Self::Own(text) => text.clone(),
            Self::Differs { rust, ours, why } => format!("{rust} (intended: {ours}; {why})"),
            Self::Outside(why) => format!("outside: {why}"),
        }
    }
}

pub fn said(text: impl Into<String>) -> Answer {
    Answer::Said(text.into())
}

pub fn own(text: impl Into<String>) -> Answer {
    Answer::Own(text.into())
}

pub fn number(n: impl Into<u64>) -> Answer {
    said(n.into().to_string())
}

pub fn question(yes: bool) -> Answer {
    said(if yes { "yes" } else { "no" })
}

pub fn refused(n: u8) -> Answer {
    said(format!("refused {n}"))
}

pub const OURS: Answer = Answer::Outside("the Rust has no such call");
pub const PRIVATE: Answer = Answer::Outside("private in the Rust: compared through on_answer");
pub const RANGE: Answer = Answer::Outside("refusal 4");
pub const ADDRESS: Answer = Answer::Outside("refusal 3");
pub const WIDTHS: Answer = Answer::Outside("refusal 2");
pub const SCRIPT: Answer = Answer::Outside("refusal 11");
pub const INDEX: Answer = Answer::Outside("refusal 9");
pub const STORE: Answer = Answer::Outside("refusal 24");
pub const PAGE: Answer = Answer::Outside("refusal 25");
pub const BODY: Answer = Answer::Outside("refusal 29");
pub const BUFFER: Answer = Answer::Outside("refusal 30");
pub const RECORD: Answer = Answer::Outside("no record that a making and calls give (refusal 26, or set)");
pub const HEADER: Answer = Answer::Outside("a header that no octets can say");
