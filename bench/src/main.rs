//! Times the library beside the peer.
//!
//! `bench` prints the tables, `bench --count` those of count alone, `bench --exact` that of exact bounds alone,
//! `bench --text` those of read and write alone, `bench --quick` the ratios alone; `bench --agree` only compares the two
//! on all inputs. `bench --one CHART RULE PROGRAM COUNT` only runs one input that often, for counting instructions;
//! `seed-N` with rule `seed` is a chart of the table of random ones, with rule `seed-exact` the same with exact bounds,
//! and an input of read or write stands in place of a chart, with rule `text`. The program is `library` or `peer`, which
//! check, or one of these with `-show`, `-count` or `-text`, or `plain-count`, the plainer of count's two peers.
//! `bench --files CHART RULE FOLDER` writes one input for the desk program. `bench --names` prints the families,
//! `bench --small` chart and rule of each small input, `bench --shown` those of each run that is shown, `bench --counted`
//! those of count whose instructions are counted, `bench --exactly` those of exact bounds and the same rule with "at
//! most", `bench --typed` those of read and write. `bench --size FILE...` prints the bytes of an archive or a program,
//! `bench --stack ARCHIVE` the stack of each exported call; the archive is the one that is linked here.

mod agreement;
mod count;
mod count_agreement;
mod count_tables;
mod exact_tables;
mod hurried_agreement;
mod image;
mod input;
mod library_answer;
mod library_count;
mod library_show;
mod library_text;
mod machine;
mod measured;
mod painted;
mod probes;
mod ratios;
mod report;
mod show;
mod stack;
mod text_agreement;
mod text_tables;
mod timing;
mod typing;
mod worst;

use bench::peer::{Outcome, Written};
use count::Count;
use input::{Buffers, Input};
use show::{steps, Lent, Show};
use std::process::ExitCode;
use std::time::Duration;
use timing::Plan;
use typing::Typing;

const USE: &str = "use: bench [--quick | --count | --exact | --text | --agree]
     bench --names | --small | --shown | --counted | --exactly | --typed
     bench --one CHART RULE library|peer|library-show|peer-show|library-count|plain-count|peer-count COUNT
     bench --one INPUT text library-text|peer-text COUNT
     bench --size FILE...
     bench --stack ARCHIVE
     bench --files CHART RULE FOLDER";

/// The plan of the tables.
const WHOLE: Plan = Plan { batches: 9, batch: Duration::from_millis(10), most: Duration::from_millis(300) };

fn main() -> ExitCode {
    let words: Vec<String> = std::env::args().skip(1).collect();
    let words: Vec<&str> = words.iter().map(String::as_str).collect();
    match run(&words) {
        Ok(()) => ExitCode::SUCCESS,
        Err(why) => {
            eprintln!("bench: {why}");
            ExitCode::FAILURE
        }
    }
}

fn run(words: &[&str]) -> Result<(), String> {
    match words {
        [] => report::all(&WHOLE),
        ["--quick"] => ratios::quick(),
        ["--count"] => report::count(&WHOLE),
        ["--exact"] => report::exact(&WHOLE),
        ["--text"] => report::text(&WHOLE),
        ["--agree"] => agreement::agreement(),
        ["--one", chart, rule, program, count] => one(chart, rule, program, count),
        ["--size", files @ ..] => image::sizes(files),
        ["--stack", archive] => image::stacks(archive),
        ["--files", chart, rule, folder] => files(chart, rule, folder),
        ["--names"] => {
            println!("{}", bench::families::NAMES.join("\n"));
            Ok(())
        }
        ["--small"] => {
            bench::small::ROWS.iter().for_each(|(chart, rule)| println!("{chart} {rule}"));
            Ok(())
        }
        ["--shown"] => {
            bench::shown::ROWS.iter().for_each(|(chart, rule)| println!("{chart} {rule}"));
            Ok(())
        }
        ["--counted"] => {
            bench::counted::CHARTS.iter().for_each(|chart| println!("{chart} {}", bench::counted::name("mixed", 63)));
            Ok(())
        }
        ["--exactly"] => {
            bench::exact::rows().iter().for_each(|row| println!("{} {} {}", row.chart, row.exact, row.most));
            Ok(())
        }
        ["--typed"] => {
            bench::texts::READS.iter().chain(&bench::texts::WRITES).for_each(|name| println!("{name} text"));
            Ok(())
        }
        _ => Err(USE.to_string()),
    }
}

fn one(chart: &str, rule: &str, program: &str, count: &str) -> Result<(), String> {
    let count: u32 = count.parse().map_err(|_| format!("{count} is not a count"))?;
    let accepted = match program {
        "library" => checked(chart, rule, count, Input::library)?,
        "peer" => checked(chart, rule, count, Input::peer)?,
        "library-show" => shown(chart, rule, count, Show::library)?,
        "peer-show" => shown(chart, rule, count, Show::peer)?,
        "library-count" => counted(chart, rule, count, Count::library)?,
        "plain-count" => counted(chart, rule, count, Count::plain)?,
        "peer-count" => counted(chart, rule, count, Count::quick)?,
        "library-text" => typed(chart, rule, count, Typing::library)?,
        "peer-text" => typed(chart, rule, count, Typing::peer)?,
        _ => return Err(format!("{program} is no program")),
    };
    if accepted {
        Ok(())
    } else {
        Err(format!("{program} does not answer as it is to: {chart} with {rule}"))
    }
}

/// Whether all of so many checks accept.
fn checked(chart: &str, rule: &str, count: u32, check: fn(&Input, &mut Buffers) -> Outcome) -> Result<bool, String> {
    let (input, mut buffers) = (Input::named(chart, rule)?, Buffers::new());
    Ok((0..count).all(|_| check(&input, &mut buffers) == Outcome::ACCEPTED))
}

/// Whether all of so many calls show the run.
fn shown(chart: &str, rule: &str, count: u32, show: fn(&Show, &mut Lent) -> Written) -> Result<bool, String> {
    let ((input, fewest), mut lent) = (Show::named(chart, rule)?, Lent::whole());
    Ok((0..count).all(|_| steps(show(&input, &mut lent)) == Some(fewest)))
}

/// Whether all of so many counts of the minutes accept.
fn counted(chart: &str, rule: &str, times: u32, count: fn(&Count, &mut Buffers) -> Outcome) -> Result<bool, String> {
    let (input, mut lent) = (Count::named(chart, rule)?, count::lent());
    Ok((0..times).all(|_| count(&input, &mut lent) == Outcome::ACCEPTED))
}

/// Whether all of so many calls answer to the text, or the rule, as they are to.
fn typed(name: &str, rule: &str, count: u32, turn: fn(&Typing, &mut [u8]) -> Written) -> Result<bool, String> {
    if rule != "text" {
        return Err(format!("{name} goes with text, not with {rule}"));
    }
    let ((typing, wanted), mut output) = (Typing::named(name)?, typing::lent(typing::ROOM));
    Ok((0..count).map(|_| turn(&typing, &mut output)).all(|answer| answer.outcome == wanted))
}

fn files(chart: &str, rule: &str, folder: &str) -> Result<(), String> {
    let input = Input::named(chart, rule)?;
    let folder = std::path::Path::new(folder);
    let write = |name: &str, bytes: &[u8]| std::fs::write(folder.join(name), bytes).map_err(|e| format!("{name}: {e}"));
    write("desk.cht", &input.chart)?;
    write("desk.rul", &input.rule)
}
