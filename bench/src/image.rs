//! What the library takes on a small machine: the bytes of its sections, and the stack of each exported call.

use crate::machine::functions;
use crate::measured::measured;
use crate::stack::Stacks;
use std::process::Command;

/// The table of sizes: an archive, and programs.
pub fn sizes(files: &[&str]) -> Result<(), String> {
    println!("| | text | read-only data | data |");
    println!("|---|---:|---:|---:|");
    files.iter().try_for_each(|file| size_row(file))
}

/// What a tool prints of a file.
fn printed(tool: &str, flags: &[&str], file: &str) -> Result<String, String> {
    let output = Command::new(tool).args(flags).arg(file).output().map_err(|why| format!("{tool}: {why}"))?;
    if !output.status.success() {
        return Err(format!("{tool} {file}: {}", String::from_utf8_lossy(&output.stderr).trim()));
    }
    String::from_utf8(output.stdout).map_err(|why| format!("{tool} {file}: {why}"))
}

/// The bytes of all sections whose names begin so.
fn bytes(sections: &str, beginnings: &[&str]) -> u64 {
    let sizes = sections.lines().filter_map(|line| {
        let mut words = line.split_whitespace();
        let name = words.next().filter(|name| beginnings.iter().any(|beginning| name.starts_with(beginning)));
        name.and(words.next()?.parse::<u64>().ok())
    });
    sizes.sum()
}

fn size_row(file: &str) -> Result<(), String> {
    let sections = printed("size", &["-A"], file)?;
    let name = file.rsplit('/').next().unwrap_or(file);
    let (text, constant) = (bytes(&sections, &[".text"]), bytes(&sections, &[".rodata"]));
    println!("| `{name}` | {text} | {constant} | {} |", bytes(&sections, &[".data", ".bss"]));
    Ok(())
}

/// The table of stacks: of each exported call the most that the machine code can take, and what was measured.
pub fn stacks(archive: &str) -> Result<(), String> {
    let functions = functions(&printed("objdump", &["-dr", "--no-show-raw-insn"], archive)?)?;
    let stacks = Stacks::of(&functions)?;
    println!("| call | stack at most | measured | deepest path of calls |");
    println!("|---|---:|---:|---|");
    let measured = measured()?;
    for name in functions.keys().filter(|name| name.starts_with("doilystrand_")) {
        let path = stacks.most(name).ok_or(format!("{archive} has no {name}"))?;
        let taken = *measured.get(name.as_str()).ok_or(format!("the stack of {name} is not measured"))?;
        if taken as i64 > path.bytes {
            return Err(format!("{name} took {taken} bytes of stack, where {} were to be the most", path.bytes));
        }
        println!("| `{name}` | {} | {taken} | {} |", path.bytes, path.told());
    }
    Ok(())
}
