//! Runs desk_rule and desk_text in a folder that is made for this, and says what is not as it has to be.

use std::fs;
use std::io;
use std::path::{Path, PathBuf};
use std::process::{Command, Output};
use std::time::Duration;

use crate::programs::files::Stored;
use crate::programs::folder::Folder;
use crate::programs::judge::{difference, first_difference};
use crate::programs::process;
use crate::programs::typed::{Done, Typed, RULE, TEXT};

/// The two programs, their paths whole.
pub struct TypedPrograms {
    pub rule: PathBuf,
    pub text: PathBuf,
}

const FILE: &str = "desk.rul";

impl TypedPrograms {
    /// Everything that is wrong.
    pub fn differences(&self, typed: &Typed, done: &Done, limit: Duration) -> io::Result<Vec<String>> {
        let folder = Folder::fresh()?;
        typed.before.write(&folder.path().join(FILE))?;
        let mut differences = against_written(typed, done);
        if let (Some(pieces), Some(printed)) = (&typed.pieces, &done.printed) {
            let mut command = Command::new(&self.rule);
            let ended = process::run_typed(command.current_dir(folder.path()), pieces.clone(), limit);
            differences.extend(wrong(RULE, ended, printed));
            differences.extend(file_wrong(folder.path(), &done.file)?.map(|what| format!("{RULE}: {what}")));
        }
        let ended = process::run(Command::new(&self.text).current_dir(folder.path()), limit);
        differences.extend(wrong(TEXT, ended, &done.told));
        differences.extend(file_wrong(folder.path(), &done.file)?.map(|what| format!("{TEXT}: {what}")));
        Ok(differences)
    }
}

fn wrong(program: &str, ended: Result<Output, String>, text: &[u8]) -> Option<String> {
    let what = match ended {
        Ok(ended) => difference(program, &ended, text),
        Err(what) => Some(what),
    };
    what.map(|what| format!("{program}: {what}"))
}

/// Only desk.rul lies in the folder, and it is this.
fn file_wrong(folder: &Path, wanted: &Stored) -> io::Result<Option<String>> {
    let found = Stored::found(&folder.join(FILE))?;
    if found != *wanted {
        return Ok(Some(format!("desk.rul is {found}, and not {wanted}")));
    }
    let others = fs::read_dir(folder)?.filter(|entry| entry.as_ref().map_or(true, |entry| entry.file_name() != FILE));
    let count = others.count();
    Ok((count > 0).then(|| format!("{count} other files are left")))
}

/// What the oracle does beside what is written down.
fn against_written(typed: &Typed, done: &Done) -> Vec<String> {
    let Some(written) = &typed.written else {
        return Vec::new();
    };
    let sides = |of: fn(&Done) -> &[u8]| first_difference(("oracle", of(done)), ("written", of(written)));
    let printed = sides(|done| done.printed.as_deref().unwrap_or(b"nothing"));
    let mut differences: Vec<String> =
        printed.map(|what| format!("the oracle's text of {RULE}: {what}")).into_iter().collect();
    differences.extend(sides(|done| &done.told).map(|what| format!("the oracle's text of {TEXT}: {what}")));
    if done.file != written.file {
        differences.push(format!("the oracle's desk.rul is {}, and not {}", done.file, written.file));
    }
    differences
}

#[cfg(test)]
mod tests {
    use super::{against_written, file_wrong, TypedPrograms};
    use crate::programs::files::Stored;
    use crate::programs::folder::Folder;
    use crate::programs::typed::{Done, Typed};
    use std::fs;
    use std::os::unix::fs::PermissionsExt;
    use std::time::Duration;

    fn done(printed: &str, file: &[u8], told: &str) -> Done {
        Done { printed: Some(printed.into()), file: Stored::Bytes(file.to_vec()), told: told.into() }
    }

    #[test]
    fn only_the_file_alone_is_right() {
        let folder = Folder::fresh().unwrap();
        let is = |wanted: &Stored| file_wrong(folder.path(), wanted).unwrap().is_none();
        assert!(is(&Stored::Missing) && !is(&Stored::Bytes(vec![])) && !is(&Stored::Folder));
        fs::write(folder.path().join("desk.rul"), [1, 2]).unwrap();
        assert!(is(&Stored::Bytes(vec![1, 2])) && !is(&Stored::Bytes(vec![1])) && !is(&Stored::Missing));
        fs::write(folder.path().join("other"), []).unwrap();
        assert!(!is(&Stored::Bytes(vec![1, 2])));
    }

    #[test]
    fn the_oracle_is_held_to_what_is_written() {
        let typed = |written| Typed { name: "".into(), before: Stored::Missing, pieces: None, written };
        let right = || done("a", &[1], "b");
        assert!(against_written(&typed(None), &right()).is_empty());
        assert!(against_written(&typed(Some(right())), &right()).is_empty());
        for wrong in [done("", &[1], "b"), done("a", &[2], "b"), done("a", &[1], "c")] {
            assert_eq!(against_written(&typed(Some(wrong)), &right()).len(), 1);
        }
    }

    /// Scripts in place of the programs: one writes what is typed, the other prints it.
    #[test]
    fn both_programs_are_compared() {
        let folder = Folder::fresh().unwrap();
        let script = |name: &str, line: &str| {
            let path = folder.path().join(name);
            fs::write(&path, format!("#!/bin/sh\n{line}\n")).unwrap();
            fs::set_permissions(&path, fs::Permissions::from_mode(0o755)).unwrap();
            path
        };
        let programs = TypedPrograms { rule: script("rule", "cat >desk.rul"), text: script("text", "cat desk.rul") };
        let pieces = Some(vec![b"tr".to_vec(), b"ue".to_vec()]);
        let typed = Typed { name: "".into(), before: Stored::Bytes(vec![0; 9]), pieces, written: None };
        let count = |done: Done| programs.differences(&typed, &done, Duration::from_secs(20)).unwrap().len();
        assert_eq!(count(done("", b"true", "true")), 0);
        assert_eq!(count(done("refused", b"true", "true")), 1);
        assert_eq!(count(done("", b"true", "True")), 1);
        assert_eq!(count(done("", b"tru", "true")), 2);
    }
}
