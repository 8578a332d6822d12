//! The machine code of the library, as `objdump -dr` prints it: what each instruction does to the stack, and where it
//! leads. What is not known is an error, so that nothing is left out unseen.

use crate::probes::join;
use std::collections::BTreeMap;

#[derive(Clone, Debug, PartialEq)]
pub enum Does {
    /// The stack grows by so many bytes, or shrinks.
    Grows(i64),
    /// So many bytes below the stack's end are used.
    RedZone(i64),
    Calls(String),
    /// A jump inside the function; one that is not always taken may go on.
    Jumps {
        to: u64,
        always: bool,
    },
    /// A jump to another function, which returns to this one's caller.
    TailCall {
        to: String,
        always: bool,
    },
    /// A jump to one of several places of the function.
    IndirectJump,
    Returns,
    /// Fills up room; nothing need lead to it.
    Pads,
    Nothing,
}

#[derive(Clone, Debug, PartialEq)]
pub struct Step {
    pub at: u64,
    /// The word and its operands.
    pub text: String,
    pub does: Does,
}

/// Functions by name.
pub type Functions = BTreeMap<String, Vec<Step>>;

/// The functions of what objdump printed.
pub fn functions(printed: &str) -> Result<Functions, String> {
    let mut all = Functions::new();
    let mut name = String::new();
    for line in printed.lines() {
        if let Some(head) = line.strip_suffix(">:") {
            name = named(head);
            if all.insert(name.clone(), Vec::new()).is_some() {
                return Err(format!("there are two functions {name}"));
            }
            continue;
        }
        let Some(steps) = all.get_mut(&name) else { continue };
        let read = if line.contains(": R_X86_64_") { relocated(steps.last_mut(), line) } else { step(line, steps) };
        read.map_err(|why| format!("{name}: {why}"))?;
    }
    all.values_mut().for_each(|steps| join(steps));
    Ok(all)
}

/// The function that `3d <name>` names.
fn named(operands: &str) -> String {
    let name = operands.split_once('<').map_or(operands, |(_, name)| name);
    name.trim_end_matches('>').to_string()
}

/// Where a function of another section is called, the line after the call has its name. Other relocations are of data.
fn relocated(last: Option<&mut Step>, line: &str) -> Result<(), String> {
    let Some((last, (_, target))) = last.zip(line.rsplit_once('\t')) else { return Ok(()) };
    let name = target.strip_prefix(".text.").unwrap_or(target);
    let to = name.strip_suffix("-0x4").map(str::to_string).ok_or(format!("{target} is no function's start"));
    last.does = match &last.does {
        Does::Calls(_) => Does::Calls(to?),
        Does::Jumps { always, .. } => Does::TailCall { to: to?, always: *always },
        Does::IndirectJump => return Err(format!("it jumps by way of {target}")),
        other => other.clone(),
    };
    Ok(())
}

fn step(line: &str, steps: &mut Vec<Step>) -> Result<(), String> {
    let Some((at, text)) = line.split_once(":\t") else { return Ok(()) };
    let Ok(at) = u64::from_str_radix(at.trim(), 16) else { return Ok(()) };
    let text = text.split(" #").next().unwrap_or(text).trim();
    let (word, operands) = text.split_once(char::is_whitespace).unwrap_or((text, ""));
    let operands = operands.trim();
    steps.push(Step { at, text: format!("{word} {operands}"), does: does(word, operands)? });
    Ok(())
}

/// What an instruction does, by its word and its operands.
fn does(word: &str, operands: &str) -> Result<Does, String> {
    match word {
        "push" | "pushq" => Ok(Does::Grows(8)),
        "pop" | "popq" => Ok(Does::Grows(-8)),
        "ret" | "retq" | "ud2" => Ok(Does::Returns),
        "call" | "callq" if !operands.starts_with('*') => Ok(Does::Calls(named(operands))),
        "nop" | "nopw" | "nopl" | "data16" | "cs" | "int3" => Ok(Does::Pads),
        "xchg" if operands == "%ax,%ax" => Ok(Does::Pads),
        "cmp" | "test" => Ok(below(operands)),
        "leave" | "enter" | "pushf" | "popf" | "call" | "callq" => Err(unknown(word, operands)),
        _ if word.starts_with('j') => jumped(word, operands),
        _ if operands.ends_with(",%rsp") => moved(word, operands),
        _ => Ok(below(operands)),
    }
}

fn unknown(word: &str, operands: &str) -> String {
    format!("what '{word} {operands}' does to the stack is not known")
}

pub fn number(text: &str) -> Option<i64> {
    let (sign, digits) = text.strip_prefix('-').map_or((1, text), |rest| (-1, rest));
    Some(sign * i64::from_str_radix(digits.strip_prefix("0x")?, 16).ok()?)
}

/// The bytes below the stack's end that an operand reaches, whole words of 8.
fn below(operands: &str) -> Does {
    let reach = operands.split_once("(%rsp").and_then(|(before, _)| before.rsplit([',', ' ']).next());
    match reach.and_then(number) {
        Some(reach) if reach < 0 => Does::RedZone((7 - reach) / 8 * 8),
        _ => Does::Nothing,
    }
}

/// The stack's end is moved by a number that the instruction names.
fn moved(word: &str, operands: &str) -> Result<Does, String> {
    let by = operands.strip_prefix('$').and_then(|rest| rest.strip_suffix(",%rsp")).and_then(number);
    match (word, by) {
        ("sub", Some(by)) => Ok(Does::Grows(by)),
        ("add", Some(by)) => Ok(Does::Grows(-by)),
        _ => Err(unknown(word, operands)),
    }
}

fn jumped(word: &str, operands: &str) -> Result<Does, String> {
    if operands.starts_with("*%r") {
        return Ok(Does::IndirectJump);
    }
    let to = operands.split(' ').next().and_then(|to| u64::from_str_radix(to, 16).ok());
    let to = to.ok_or_else(|| format!("'{word} {operands}' jumps to no place"))?;
    Ok(Does::Jumps { to, always: word == "jmp" })
}

#[cfg(test)]
mod tests {
    use super::*;

    const JUDGE: &str = "
0000000000000000 <judge::judge>:
   0:\tpush   %rbp
   1:\tsub    $0x88,%rsp
   8:\tmov    -0xd(%rsp),%al
   d:\tcall   12 <judge::judge+0x12>
\t\t\te: R_X86_64_PLT32\t.text.loops::loop_refusal-0x4
  12:\tjne    18 <judge::judge+0x18>
\t\t\t13: R_X86_64_PLT32\toutcome::accepted-0x4
  18:\tret
";

    #[test]
    fn a_function_with_a_frame_and_calls() {
        let does: Vec<Does> = functions(JUDGE).unwrap()["judge::judge"].iter().map(|step| step.does.clone()).collect();
        let call = Does::Calls("loops::loop_refusal".to_string());
        let last = Does::TailCall { to: "outcome::accepted".to_string(), always: false };
        assert_eq!(does, [Does::Grows(8), Does::Grows(0x88), Does::RedZone(0x10), call, last, Does::Returns]);
    }

    #[test]
    fn jumps() {
        assert_eq!(does("jne", "4b <f+0x4b>"), Ok(Does::Jumps { to: 0x4b, always: false }));
        assert_eq!(does("jmp", "4b <f+0x4b>"), Ok(Does::Jumps { to: 0x4b, always: true }));
        assert_eq!(does("jmp", "*%rsi"), Ok(Does::IndirectJump));
    }

    #[test]
    fn what_is_not_known_is_an_error() {
        assert!(does("and", "$0xfffffffffffffff0,%rsp").is_err());
        assert!(does("mov", "%rbp,%rsp").is_err());
        assert!(does("call", "*%rax").is_err());
        assert!(does("jmp", "*0x0(%rip)").is_err());
        assert!(does("leave", "").is_err());
        assert!(functions(&JUDGE.replace("loop_refusal-0x4", "loop_refusal+0x1c")).is_err());
        assert!(functions(&[JUDGE, JUDGE].concat()).is_err());
    }
}
