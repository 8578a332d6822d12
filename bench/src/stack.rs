//! The most stack that a function takes, whatever it is handed: the frames along its deepest path of calls.
//!
//! The depth at every instruction follows from those before it.

use crate::machine::{Does, Functions, Step};
use bench::deep::NODES;
use std::collections::{BTreeMap, BTreeSet};

/// The address that a call leaves on the stack.
const ADDRESS: i64 = 8;

/// What is C's own counts with that address alone.
const OF_C: [&str; 2] = ["memcpy", "memset"];

/// The functions that come to themselves again, and how many frames of them there are at a time, at most: they take a node's
/// number, which falls, and a rule has so many nodes; or what is left of a number without its last digit.
const RECURSIVE: [(&str, usize); 5] = [
    ("settle::settle", NODES),
    ("call_kind::all_runs", NODES),
    ("call_kind::some_run", NODES),
    ("rule_printer::print_node", NODES),
    ("decimal::put_number", DIGITS),
];

/// The digits of the greatest number of 64 bits.
const DIGITS: usize = 20;

/// How many frames of a function there are at a time, at most; none where that is not known.
fn frames_of(name: &str) -> Option<usize> {
    RECURSIVE.iter().find(|(known, _)| *known == name).map(|(_, frames)| *frames)
}

/// The bytes of stack at each step, from where the function was entered; none where nothing leads to.
fn depths(steps: &[Step]) -> Result<Vec<Option<i64>>, String> {
    let places: BTreeMap<u64, usize> = steps.iter().enumerate().map(|(i, step)| (step.at, i)).collect();
    let mut depths = vec![None; steps.len()];
    let mut open = vec![(0, ADDRESS)];
    while let Some((i, depth)) = open.pop().or_else(|| jumped_to(steps, &depths)) {
        let Some(step) = steps.get(i) else { return Err("its last instruction goes on".to_string()) };
        match depths[i] {
            Some(known) if known == depth => continue,
            Some(known) => return Err(format!("at {:x} the stack has {known} bytes or {depth}", step.at)),
            None => depths[i] = Some(depth),
        }
        open.extend(following(step, i, depth, &places)?);
    }
    if uneven(steps, &depths) {
        return Err("its indirect jumps are not as deep as one another".to_string());
    }
    Ok(depths)
}

/// Where a step goes on, and how deep.
fn following(step: &Step, i: usize, depth: i64, places: &BTreeMap<u64, usize>) -> Result<Vec<(usize, i64)>, String> {
    let next = (i + 1, depth);
    match &step.does {
        Does::Returns | Does::TailCall { always: true, .. } | Does::IndirectJump => Ok(vec![]),
        Does::Grows(by) => Ok(vec![(i + 1, depth + by)]),
        Does::Jumps { to, always } => {
            let to = *places.get(to).ok_or_else(|| format!("at {:x} it jumps out of the function", step.at))?;
            Ok(if *always { vec![(to, depth)] } else { vec![(to, depth), next] })
        }
        Does::TailCall { .. } | Does::RedZone(_) | Does::Calls(_) | Does::Pads | Does::Nothing => Ok(vec![next]),
    }
}

/// The first step that nothing has led to, where the function's one indirect jump may, or one of several that go by a table of
/// its places: it is as deep as these, if they are all as deep.
fn jumped_to(steps: &[Step], depths: &[Option<i64>]) -> Option<(usize, i64)> {
    let left = (0..steps.len()).find(|&i| depths[i].is_none() && steps[i].does != Does::Pads)?;
    let mut deep = jumps(steps).filter_map(|i| depths[i]).collect::<BTreeSet<_>>().into_iter();
    let (depth, None) = (deep.next()?, deep.next()) else { return None };
    (jumps(steps).count() == 1 || jumps(steps).all(|i| by_table(steps, i))).then_some((left, depth))
}

fn jumps(steps: &[Step]) -> impl Iterator<Item = usize> + '_ {
    (0..steps.len()).filter(|&i| steps[i].does == Does::IndirectJump)
}

/// The place that is jumped to is read from a table, and counts from the table's own.
fn by_table(steps: &[Step], jump: usize) -> bool {
    jump >= 2 && steps[jump - 1].text.starts_with("add ") && steps[jump - 2].text.starts_with("movslq (")
}

/// Indirect jumps are not as deep as one another: what each leads to can't be told apart.
fn uneven(steps: &[Step], depths: &[Option<i64>]) -> bool {
    jumps(steps).map(|i| depths[i]).collect::<BTreeSet<_>>().len() > 1
}

/// The bytes that a function takes by itself, and the functions that it calls, each with the depth of the call.
struct Frame<'a> {
    own: i64,
    calls: Vec<(&'a str, i64)>,
}

fn frame(steps: &[Step]) -> Result<Frame<'_>, String> {
    let mut frame = Frame { own: ADDRESS, calls: Vec::new() };
    for (step, depth) in steps.iter().zip(depths(steps)?) {
        let depth = match (depth, &step.does) {
            (Some(depth), _) => depth,
            (None, Does::Pads) => continue,
            (None, _) => return Err(format!("nothing leads to {:x}", step.at)),
        };
        frame.own = frame.own.max(depth);
        match &step.does {
            Does::RedZone(below) => frame.own = frame.own.max(depth + below),
            Does::Calls(to) => frame.calls.push((to, depth)),
            // The frame is gone by then, and the address is the one that this function returns to.
            Does::TailCall { to, .. } => frame.calls.push((to, depth - ADDRESS)),
            _ => {}
        }
    }
    Ok(frame)
}

/// The frames on the way down, from the highest, each with its function and its bytes.
#[derive(Clone)]
pub struct CallPath<'a> {
    pub bytes: i64,
    frames: Vec<(&'a str, i64)>,
}

impl<'a> CallPath<'a> {
    fn of(name: &'a str, bytes: i64) -> Self {
        CallPath { bytes, frames: vec![(name, bytes)] }
    }

    fn under(self, name: &'a str, bytes: i64) -> Self {
        // A function that has made a tail call has no frame.
        let own = (bytes > 0).then_some((name, bytes));
        CallPath { bytes: self.bytes + bytes, frames: own.into_iter().chain(self.frames).collect() }
    }

    /// In words: equal frames are told once, where the first of them stands.
    pub fn told(&self) -> String {
        let mut told: Vec<((&str, i64), usize)> = Vec::new();
        for &frame in &self.frames {
            match told.iter_mut().find(|(known, _)| *known == frame) {
                Some((_, count)) => *count += 1,
                None => told.push((frame, 1)),
            }
        }
        let words = told.iter().map(|&((name, bytes), count)| match count {
            1 => format!("{name} {bytes}"),
            _ => format!("{name} {count} × {bytes}"),
        });
        words.collect::<Vec<_>>().join(", ")
    }
}

/// The deepest paths that are known, by function and recursive calls still to come.
type Known<'a> = BTreeMap<(&'a str, usize), CallPath<'a>>;

/// The frames of a library, and what each function can come to.
pub struct Stacks<'a> {
    frames: BTreeMap<&'a str, Frame<'a>>,
    reached: BTreeMap<&'a str, BTreeSet<&'a str>>,
}

fn reached<'a>(from: &str, frames: &BTreeMap<&'a str, Frame<'a>>) -> BTreeSet<&'a str> {
    let mut met = BTreeSet::new();
    let mut open = vec![from];
    while let Some(name) = open.pop() {
        for &(to, _) in frames.get(name).map_or(&[][..], |frame| &frame.calls) {
            if met.insert(to) {
                open.push(to);
            }
        }
    }
    met
}

impl<'a> Stacks<'a> {
    pub fn of(functions: &'a Functions) -> Result<Self, String> {
        let mut frames = BTreeMap::new();
        for (name, steps) in functions {
            let frame = frame(steps).map_err(|why| format!("{name}: {why}"))?;
            if let Some((to, _)) = frame.calls.iter().find(|(to, _)| !functions.contains_key(*to) && !OF_C.contains(to))
            {
                return Err(format!("{name}: it calls {to}, which is not there"));
            }
            frames.insert(name.as_str(), frame);
        }
        let reached: BTreeMap<_, _> = frames.keys().map(|&name| (name, reached(name, &frames))).collect();
        match reached.iter().find(|(name, reached)| reached.contains(*name) && frames_of(name).is_none()) {
            Some((name, _)) => Err(format!("{name} comes to itself again, how often is not known")),
            None => Ok(Stacks { frames, reached }),
        }
    }

    /// Whether the one that is called can come to its caller again.
    fn is_recursive(&self, from: &str, to: &str) -> bool {
        self.reached.get(to).is_some_and(|reached| reached.contains(from))
    }

    /// The deepest path from a function, with so many recursive calls still to come.
    fn deepest(&self, name: &'a str, recursive: usize, known: &mut Known<'a>) -> CallPath<'a> {
        let Some(frame) = self.frames.get(name) else { return CallPath::of(name, ADDRESS) };
        if let Some(path) = known.get(&(name, recursive)) {
            return path.clone();
        }
        let mut most = CallPath::of(name, frame.own);
        for &(to, depth) in &frame.calls {
            let left = if self.is_recursive(name, to) { recursive.checked_sub(1) } else { Some(further(to)) };
            let Some(left) = left else { continue };
            let below = self.deepest(to, left, known);
            if depth + below.bytes > most.bytes {
                most = below.under(name, depth);
            }
        }
        known.insert((name, recursive), most.clone());
        most
    }

    /// The deepest path from a function of the library.
    pub fn most(&self, name: &str) -> Option<CallPath<'a>> {
        let (&name, _) = self.frames.get_key_value(name)?;
        Some(self.deepest(name, further(name), &mut Known::new()))
    }
}

/// How often a function that is called from outside may come to itself again.
fn further(name: &str) -> usize {
    frames_of(name).map_or(0, |frames| frames - 1)
}

#[cfg(test)]
mod tests {
    use super::*;
    use crate::machine::functions;

    fn told(printed: &str, name: &str) -> Result<String, String> {
        let functions = functions(printed)?;
        let path = Stacks::of(&functions)?.most(name).ok_or("no such function")?;
        Ok(format!("{}: {}", path.bytes, path.told()))
    }

    const CALLS: &str = "
0 <f>:
   0:\tsub    $0x18,%rsp
   4:\tje     9 <f+0x9>
   6:\tcall   b <g>
   9:\tadd    $0x18,%rsp
   d:\tjmp    12 <f+0x12>
\t\t\te: R_X86_64_PLT32\tmemset-0x4
0 <g>:
   0:\tmov    %rax,-0x20(%rsp)
   5:\tret
   6:\tnop
0 <h>:
   0:\tjmp    *%rax
   2:\tpush   %rbx
   3:\tpop    %rbx
   4:\tret
   5:\tret
";

    const SETTLE: &str = "
0 <settle::settle>:
   0:\tpush   %rbx
   1:\tcall   0 <settle::settle>
   6:\tcall   0 <g>
   b:\tpop    %rbx
   c:\tret
0 <g>:
   0:\tret
";

    const PROBES: &str = "
0 <f>:
       9:\tpush   %rbx
       a:\tmov    %rsp,%r11
       d:\tsub    $0x8000,%r11
      14:\tsub    $0x1000,%rsp
      1b:\tmovq   $0x0,(%rsp)
      23:\tcmp    %r11,%rsp
      26:\tjne    14 <f+0x14>
      28:\tsub    $0x9a8,%rsp
      2f:\tcall   0 <g>
      34:\tadd    $0x89a8,%rsp
      3b:\tpop    %rbx
      3c:\tret
0 <g>:
   0:\tret
";

    #[test]
    fn frames_add_up_and_a_tail_call_has_none_above_it() {
        assert_eq!(told(CALLS, "f"), Ok("72: f 32, g 40".to_string()));
        assert_eq!(told(CALLS, "h"), Ok("16: h 16".to_string()));
    }

    #[test]
    fn what_comes_to_itself_stands_there_as_often_as_it_can() {
        assert_eq!(told(SETTLE, "settle::settle"), Ok("1032: settle::settle 64 × 16, g 8".to_string()));
        let digits = told(&SETTLE.replace("settle::settle", "decimal::put_number"), "decimal::put_number");
        assert_eq!(digits, Ok("328: decimal::put_number 20 × 16, g 8".to_string()));
        let other = told(&SETTLE.replace("settle::settle", "other"), "other");
        assert_eq!(other, Err("other comes to itself again, how often is not known".to_string()));
    }

    #[test]
    fn what_is_not_clear_is_an_error() {
        let uneven = "0 <f>:\n 0:\tje     2 <f+0x2>\n 1:\tpush   %rbx\n 2:\tret\n";
        assert_eq!(told(uneven, "f"), Err("f: at 2 the stack has 16 bytes or 8".to_string()));
        let idle = "0 <f>:\n 0:\tret\n 1:\tpush   %rbx\n 2:\tret\n";
        assert_eq!(told(idle, "f"), Err("f: nothing leads to 1".to_string()));
        let twice = "0 <f>:\n 0:\tje     3 <f+0x3>\n 1:\tjmp    *%rax\n 3:\tjmp    *%rax\n 5:\tret\n";
        assert_eq!(told(twice, "f"), Err("f: nothing leads to 5".to_string()));
        let tables = "0 <f>:\n 0:\tje     9 <f+0x9>\n 2:\tmovslq (%rdi,%rsi,4),%rsi\n 4:\tadd    %rdi,%rsi\n 6:\tjmp    *%rsi\n \
                      9:\tmovslq (%rdi,%rsi,4),%rsi\n b:\tadd    %rdi,%rsi\n d:\tjmp    *%rsi\n f:\tret\n";
        assert_eq!(told(tables, "f"), Ok("8: f 8".to_string()));
        let deeper = tables.replace(" 2:\tmovslq", " 1:\tpush   %rbx\n 2:\tmovslq");
        assert_eq!(told(&deeper, "f"), Err("f: its indirect jumps are not as deep as one another".to_string()));
        let strange = "0 <f>:\n 0:\tcall   9 <strange>\n 5:\tret\n";
        assert_eq!(told(strange, "f"), Err("f: it calls strange, which is not there".to_string()));
    }

    #[test]
    fn a_loop_that_touches_each_page_takes_them_all() {
        assert_eq!(told(PROBES, "f"), Ok("35264: f 35256, g 8".to_string()));
    }

    #[test]
    fn what_only_looks_like_such_a_loop_is_an_error() {
        let edits = [
            ("$0x8000,%r11", "$0x8800,%r11"),
            ("$0x8000,%r11", "$0x0,%r11"),
            ("$0x8000,%r11", "$0x8000,%r10"),
            ("mov    %rsp,%r11", "mov    %rbp,%r11"),
            ("$0x1000,%rsp", "$0x2000,%rsp"),
            ("movq   $0x0,(%rsp)", "movq   $0x0,(%rax)"),
            ("cmp    %r11,%rsp", "cmp    %r10,%rsp"),
            ("jne    14", "ja     14"),
            ("push   %rbx", "je     14 <f+0x14>"),
        ];
        for (from, to) in edits {
            let near = told(&PROBES.replace(from, to), "f");
            assert!(near.as_ref().is_err_and(|why| why.starts_with("f: at 14 the stack has ")), "{to}: {near:?}");
        }
    }
}
