//! The stack that each exported call takes on the largest charts and the deepest rules, measured.

use crate::count::ROWS;
use crate::input::Buffers;
use crate::painted::taken;
use crate::show::POSITIONS;
use crate::typing::{lent as lent_output, ROOM};
use bench::{counted, deep, edited, families, maps, shown, texts};
use std::collections::BTreeMap;

// Only where they stand is asked for here; what they take, `include/doilystrand.h` says.
extern "C" {
    fn doilystrand_check();
    fn doilystrand_count();
    fn doilystrand_show();
    fn doilystrand_kind_of_rule();
    fn doilystrand_read_rule();
    fn doilystrand_write_rule();
    fn doilystrand_map_check();
    fn doilystrand_row();
    fn doilystrand_arrow();
    fn doilystrand_words_of();
}

/// States and arrows of the largest chart.
const STATES: usize = 256;
const ARROWS: usize = 2048;

/// The most bytes that each call took.
pub type Most = BTreeMap<&'static str, usize>;

/// Makes a call, notes the stack that it took, and answers its number.
fn call(most: &mut Most, name: &'static str, function: unsafe extern "C" fn(), arguments: &[&[usize]]) -> u32 {
    // Safety: a slice is handed over as its pointer and its length, and outlives the call.
    let taken = unsafe { taken(function as *const (), &arguments.concat()) };
    let known = most.entry(name).or_default();
    *known = taken.bytes.max(*known);
    taken.answer as u32
}

/// More words than any answer has.
const ANSWER: usize = 32;

/// The same of a call whose answer is too long for registers: where it is to stand is handed over first, and its first
/// number is answered.
fn call_into(most: &mut Most, name: &'static str, function: unsafe extern "C" fn(), arguments: &[&[usize]]) -> u32 {
    let mut answer = [0usize; ANSWER];
    let stands: &[usize] = &[answer.as_mut_ptr() as usize];
    call(most, name, function, &[&[stands], arguments].concat());
    answer[0] as u32
}

fn read(bytes: &[u8]) -> [usize; 2] {
    [bytes.as_ptr() as usize, bytes.len()]
}

fn lent<T>(part: &mut [T]) -> [usize; 2] {
    [part.as_mut_ptr() as usize, part.len()]
}

/// What was refused for another reason would not have gone all the way down.
fn expect(name: &str, number: u32, expected: u32) -> Result<(), String> {
    if number == expected {
        Ok(())
    } else {
        Err(format!("{name} answers {number} and not {expected} where its stack is looked at"))
    }
}

/// Check or count, which are handed the same, of a chart with each of the deepest rules.
fn with_deep_rules(
    most: &mut Most,
    name: &'static str,
    function: unsafe extern "C" fn(),
    chart: &[u8],
    c: u16,
) -> Result<(), String> {
    let mut buffers = Buffers::with_scratch(ROWS * STATES);
    for rule in deep::rules(c) {
        let tables = [lent(&mut buffers.marks), lent(&mut buffers.scratch)].concat();
        expect(name, call(most, name, function, &[&read(chart), &read(&rule), &tables]), 0)?;
    }
    Ok(())
}

fn checks(most: &mut Most) -> Result<(), String> {
    families::NAMES.iter().try_for_each(|family| {
        let chart = families::chart(family, STATES, ARROWS).ok_or(format!("no chart {family}"))?;
        with_deep_rules(most, "doilystrand_check", doilystrand_check, &chart, u16::MAX)
    })
}

fn counts(most: &mut Most) -> Result<(), String> {
    counted::CHARTS.iter().try_for_each(|chart| {
        let chart = counted::chart(chart).ok_or(format!("no chart {chart}"))?;
        with_deep_rules(most, "doilystrand_count", doilystrand_count, &chart, 255)
    })
}

/// Shown runs of every sort, and the deepest rules, which show goes all the way down before it refuses with 60.
fn shows(most: &mut Most) -> Result<(), String> {
    let (name, mut buffers) = ("doilystrand_show", Buffers::with_scratch(POSITIONS * STATES));
    let mut output = vec![0; 6 * POSITIONS];
    let mut show = |chart: &[u8], rule: &[u8], asked: [usize; 2]| {
        let tables = [lent(&mut buffers.marks), lent(&mut buffers.scratch), asked, lent(&mut output)];
        call_into(most, name, doilystrand_show, &[&read(chart), &read(rule), &tables.concat()])
    };
    for (chart, rule) in shown::ROWS {
        let row = shown::input(chart, rule).ok_or(format!("no run is shown for {chart} with {rule}"))?;
        expect(name, show(&row.chart, &row.rule, [row.node, row.state]), 0)?;
        for rule in deep::rules(u16::MAX) {
            expect(name, show(&row.chart, &rule, [0, 0]), 60)?;
        }
    }
    Ok(())
}

fn map_checks(most: &mut Most) -> Result<(), String> {
    let name = "doilystrand_map_check";
    for input in maps::NAMES {
        let input = maps::input(input).ok_or(format!("no map input {input}"))?;
        let charts = [read(&input.detail), read(&input.overview), read(&input.map)];
        expect(name, call(most, name, doilystrand_map_check, &[&charts.concat()]), 0)?;
    }
    Ok(())
}

/// The texts that are timed, and those of drawn rules with edits, so that reading ends in every way.
fn reads(most: &mut Most) -> Result<(), String> {
    let (name, mut output) = ("doilystrand_read_rule", lent_output(ROOM));
    let mut read_rule = |text: &[u8], room: usize| {
        call_into(most, name, doilystrand_read_rule, &[&read(text), &lent(&mut output[..room])])
    };
    for input in texts::READS {
        let text = texts::read(input).ok_or(format!("no text {input}"))?;
        let number = text.answer.number;
        expect(name, read_rule(&text.bytes, ROOM), number)?;
        let short = if number == 0 { 66 } else { number };
        expect(name, read_rule(&text.bytes, 0), short)?;
    }
    expect(name, read_rule(&[b'!'; texts::TEXT + 1], ROOM), 65)?;
    (0..100).flat_map(edited::texts).for_each(|text| {
        read_rule(&text, ROOM);
    });
    Ok(())
}

/// The deepest rules, one with a number at its foot among them, and those whose texts are timed.
fn writes(most: &mut Most) -> Result<(), String> {
    let (name, mut output) = ("doilystrand_write_rule", lent_output(ROOM));
    let timed = texts::WRITES.into_iter().filter_map(texts::write).map(|rule| rule.bytes);
    let label = texts::rule(("!".repeat(deep::NODES - 1) + "L15").as_bytes()).ok_or("no rule of nots")?;
    for rule in deep::rules(u16::MAX).into_iter().chain(timed).chain([label]) {
        for (room, expected) in [(ROOM, 0), (0, 66)] {
            let arguments = [read(&rule), lent(&mut output[..room])].concat();
            expect(name, call_into(most, name, doilystrand_write_rule, &[&arguments]), expected)?;
        }
    }
    Ok(())
}

/// Those that are handed a rule or a chart alone, and the row.
fn others(most: &mut Most) -> Result<(), String> {
    for rule in deep::rules(u16::MAX) {
        let name = "doilystrand_kind_of_rule";
        expect(name, call(most, name, doilystrand_kind_of_rule, &[&read(&rule)]), 0)?;
    }
    call(most, "doilystrand_row", doilystrand_row, &[&[64 * STATES, 64 * STATES, 1, STATES, 63]]);
    let chart = families::chart("random", STATES, ARROWS).ok_or("no chart random")?;
    let found = call_into(most, "doilystrand_arrow", doilystrand_arrow, &[&read(&chart), &[ARROWS - 1]]);
    if found == 1 {
        Ok(())
    } else {
        Err("doilystrand_arrow finds no arrow where its stack is looked at".to_string())
    }
}

/// Outcomes that the papers have, and others. Number and place share a register, the entry stands in the next one; what
/// is answered are the first letters of the sentence.
fn words(most: &mut Most) -> Result<(), String> {
    let mut told = 0;
    for (number, entry) in (0..100).flat_map(|number| (0..8).map(move |entry| (number, entry))) {
        let letters = call_into(most, "doilystrand_words_of", doilystrand_words_of, &[&[number, entry]]);
        told += usize::from(letters != 0);
    }
    if told > 0 {
        Ok(())
    } else {
        Err("doilystrand_words_of tells nothing where its stack is looked at".to_string())
    }
}

pub fn measured() -> Result<Most, String> {
    let mut most = Most::new();
    checks(&mut most)?;
    counts(&mut most)?;
    shows(&mut most)?;
    map_checks(&mut most)?;
    reads(&mut most)?;
    writes(&mut most)?;
    others(&mut most)?;
    words(&mut most)?;
    Ok(most)
}
