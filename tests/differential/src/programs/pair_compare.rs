//! Runs the programs that read files in a folder that is made for this, and says what is not as it has to be.

use std::io;
use std::path::PathBuf;
use std::process::Command;
use std::time::Duration;

use crate::programs::files::{Pair, PROGRAMS};
use crate::programs::folder::Folder;
use crate::programs::judge;
use crate::programs::process;
use crate::programs::why::WHY;

/// The programs, their paths whole, since they are started in another folder.
pub struct PairPrograms {
    /// Of `PROGRAMS`, in order.
    pub paths: Vec<PathBuf>,
    pub why: PathBuf,
}

/// What the programs did with a pair.
pub struct Seen {
    /// Everything that is wrong.
    pub differences: Vec<String>,
    /// What desk_why printed.
    pub why: String,
}

impl PairPrograms {
    pub fn see(&self, pair: &Pair, texts: &[String; 2], limit: Duration) -> io::Result<Seen> {
        let folder = Folder::fresh()?;
        pair.files.write(folder.path())?;
        let mut differences = against_written(pair, texts);
        for ((name, path), text) in PROGRAMS.iter().zip(&self.paths).zip(texts) {
            let what = match process::run(Command::new(path).current_dir(folder.path()), limit) {
                Ok(ended) => judge::difference(name, &ended, text),
                Err(what) => Some(what),
            };
            differences.extend(what.map(|what| format!("{name}: {what}")));
        }
        let mut asked = Command::new(&self.why);
        asked.args(pair.why.arguments()).current_dir(folder.path());
        let why = match process::run(&mut asked, limit) {
            Ok(ended) => pair.why.text(&pair.files, &ended),
            Err(what) => Err(what),
        };
        differences.extend(why.as_ref().err().map(|what| format!("{WHY}: {what}")));
        Ok(Seen { differences, why: why.unwrap_or_default() })
    }
}

/// The oracle's texts beside those that are written down.
fn against_written(pair: &Pair, texts: &[String; 2]) -> Vec<String> {
    let Some(written) = &pair.written else {
        return Vec::new();
    };
    let texts = PROGRAMS.iter().zip(texts).zip(written);
    let differ = |((name, oracle), written): ((&&str, &String), &String)| {
        let what = judge::first_difference(("oracle", oracle.as_bytes()), ("written", written.as_bytes()))?;
        Some(format!("the oracle's text of {name}: {what}"))
    };
    texts.filter_map(differ).collect()
}
