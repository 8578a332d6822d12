//! check [FOLDER]: at which states of the folder's desk.cht the rule of its desk.rul holds.

use std::error::Error;
use std::path::{Path, PathBuf};
use std::process::ExitCode;

fn read(folder: &Path, name: &str) -> Result<Vec<u8>, String> {
    let path = folder.join(name);
    std::fs::read(&path).map_err(|why| format!("{} can't be read: {why}", path.display()))
}

fn run(folder: &Path) -> Result<(), Box<dyn Error>> {
    let chart = read(folder, "desk.cht")?;
    let rule = read(folder, "desk.rul")?;
    let marks = doilystrand::marks(&chart, &rule)?;
    for state in 0..marks.states() {
        let answer = if marks.rule_holds(state) { "holds" } else { "does not hold" };
        println!("state {state}: {answer}");
    }
    Ok(())
}

fn main() -> ExitCode {
    let folder = std::env::args_os().nth(1).map_or("examples/short".into(), PathBuf::from);
    match run(&folder) {
        Ok(()) => ExitCode::SUCCESS,
        Err(why) => {
            eprintln!("{why}");
            ExitCode::FAILURE
        }
    }
}
