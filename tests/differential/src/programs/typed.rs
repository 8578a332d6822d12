//! The programs desk_rule and desk_text: a rule that is typed to the first becomes desk.rul, which the second tells as
//! text.

use std::fmt;

use oracle::{rule_text, typed_rule, RULE_READ};

use crate::cases::replay::hex;
use crate::programs::files::Stored;

pub const RULE: &str = "desk_rule";
pub const TEXT: &str = "desk_text";

/// What the two do: desk_rule prints, then desk.rul lies there, then desk_text prints.
#[derive(Clone, Debug, PartialEq, Eq)]
pub struct Done {
    /// None where nothing is typed, and desk_text alone is run.
    pub printed: Option<Vec<u8>>,
    pub file: Stored,
    pub told: Vec<u8>,
}

/// What is typed, and what lies under desk.rul before. For some it is written down what is done.
pub struct Typed {
    pub name: String,
    pub before: Stored,
    /// Piece after piece; none where desk_text alone is run.
    pub pieces: Option<Vec<Vec<u8>>>,
    pub written: Option<Done>,
}

impl Typed {
    /// What the oracle does: a file that is not written stays as it was.
    pub fn done(&self) -> Done {
        let typed = self.pieces.as_ref().map(|pieces| typed_rule(&pieces.concat()));
        let (printed, file) = typed.map_or((None, None), |typed| (Some(typed.printed), typed.file));
        let file = file.map_or(self.before.clone(), Stored::Bytes);
        let told = rule_text(file.read(RULE_READ));
        Done { printed, file, told }
    }
}

impl fmt::Display for Typed {
    fn fmt(&self, to: &mut fmt::Formatter<'_>) -> fmt::Result {
        let typed = |pieces: &Vec<Vec<u8>>| pieces.iter().map(|piece| hex(piece)).collect::<Vec<_>>().join(" ");
        let typed = self.pieces.as_ref().map_or("nothing".into(), typed);
        write!(to, "desk.rul: {}\ntyped: {typed}", self.before)
    }
}

impl fmt::Display for Done {
    fn fmt(&self, to: &mut fmt::Formatter<'_>) -> fmt::Result {
        if let Some(printed) = &self.printed {
            writeln!(to, "{RULE} has to print:\n{}", String::from_utf8_lossy(printed).trim_end())?;
        }
        writeln!(to, "then desk.rul is: {}", self.file)?;
        write!(to, "{TEXT} has to print:\n{}", String::from_utf8_lossy(&self.told).trim_end())
    }
}
