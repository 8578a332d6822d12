//! The files that the programs read, and what the oracle prints for them.

use std::fmt;
use std::fs;
use std::io;
use std::path::Path;

use oracle::{calls_text, listing, ASK_READ, CHART_READ, RULE_READ};

use crate::cases::replay::hex;
use crate::programs::why::Why;

/// What lies under a file's name.
#[derive(Clone, Debug, PartialEq, Eq)]
pub enum Stored {
    Bytes(Vec<u8>),
    Missing,
    Folder,
}

#[derive(Clone, Debug, PartialEq, Eq)]
pub struct Files {
    pub chart: Stored,
    pub rule: Stored,
    pub ask: Stored,
}

pub const PROGRAMS: [&str; 2] = ["desk", "desk_test_calls"];

/// Files for all programs, and what desk_why is asked. For some it is written down what each of `PROGRAMS` has to print.
pub struct Pair {
    pub name: String,
    pub files: Files,
    pub why: Why,
    pub written: Option<[String; 2]>,
}

impl Stored {
    /// What is read of it; whatever isn't a file counts as empty.
    pub fn read(&self, most: usize) -> &[u8] {
        match self {
            Stored::Bytes(bytes) => &bytes[..bytes.len().min(most)],
            Stored::Missing | Stored::Folder => &[],
        }
    }

    /// What lies under a path.
    pub fn found(path: &Path) -> io::Result<Stored> {
        match fs::read(path) {
            Ok(bytes) => Ok(Stored::Bytes(bytes)),
            Err(_) if path.is_dir() => Ok(Stored::Folder),
            Err(why) if why.kind() == io::ErrorKind::NotFound => Ok(Stored::Missing),
            Err(why) => Err(why),
        }
    }

    pub fn write(&self, path: &Path) -> io::Result<()> {
        match self {
            Stored::Bytes(bytes) => fs::write(path, bytes),
            Stored::Missing => Ok(()),
            Stored::Folder => fs::create_dir(path),
        }
    }
}

impl Files {
    pub fn write(&self, folder: &Path) -> io::Result<()> {
        self.chart.write(&folder.join("desk.cht"))?;
        self.rule.write(&folder.join("desk.rul"))?;
        self.ask.write(&folder.join("row.ask"))
    }

    /// What each of `PROGRAMS` has to print.
    pub fn texts(&self) -> [String; 2] {
        let (chart, rule) = (self.chart.read(CHART_READ), self.rule.read(RULE_READ));
        [listing(chart, rule), calls_text(chart, rule, self.ask.read(ASK_READ))]
    }
}

impl fmt::Display for Stored {
    fn fmt(&self, to: &mut fmt::Formatter<'_>) -> fmt::Result {
        match self {
            Stored::Bytes(bytes) => write!(to, "{} bytes {}", bytes.len(), hex(bytes)),
            Stored::Missing => write!(to, "missing"),
            Stored::Folder => write!(to, "a folder"),
        }
    }
}

impl fmt::Display for Files {
    fn fmt(&self, to: &mut fmt::Formatter<'_>) -> fmt::Result {
        write!(to, "desk.cht: {}\ndesk.rul: {}\nrow.ask: {}", self.chart, self.rule, self.ask)
    }
}
