//! A case as one line of text, and back.

use crate::cases::case::{Case, Lent, Table};

pub fn hex(bytes: &[u8]) -> String {
    bytes.iter().map(|byte| format!("{byte:02x}")).collect()
}

fn lent_text(lent: &Lent) -> String {
    format!("{}/{:x}", lent.length, lent.fill)
}

/// What check, count and show are all lent.
fn marking_text(chart: &[u8], rule: &[u8], marks: &Lent, scratch: &Lent) -> String {
    let (marks, scratch) = (lent_text(marks), lent_text(scratch));
    format!("chart={} rule={} marks={marks} scratch={scratch}", hex(chart), hex(rule))
}

pub fn text(case: &Case) -> String {
    match case {
        Case::Check { chart, rule, marks, scratch } => format!("check {}", marking_text(chart, rule, marks, scratch)),
        Case::Count { chart, rule, marks, scratch } => format!("count {}", marking_text(chart, rule, marks, scratch)),
        Case::Kind { rule } => format!("kind rule={}", hex(rule)),
        Case::Map { detail, overview, map } => {
            format!("map detail={} overview={} map={}", hex(detail), hex(overview), hex(map))
        }
        Case::Row { overview, detail, choice, n, t } => {
            let choice = if *choice == Table::Overview { "overview" } else { "detail" };
            let tables = format!("overview={} detail={}", hex(overview), hex(detail));
            format!("row {tables} choice={choice} n={n} t={t}")
        }
        Case::Show { chart, rule, marks, scratch, node, state, output } => {
            let (lent, output) = (marking_text(chart, rule, marks, scratch), lent_text(output));
            format!("show {lent} node={node} state={state} output={output}")
        }
        Case::Read { text, output } => format!("read text={} output={}", hex(text), lent_text(output)),
        Case::Write { rule, output } => format!("write rule={} output={}", hex(rule), lent_text(output)),
    }
}

/// The fields of a line in any order; each name is asked for once.
struct Fields<'a>(Vec<(&'a str, &'a str)>);

impl<'a> Fields<'a> {
    fn get(&self, name: &str) -> Result<&'a str, String> {
        let found = self.0.iter().find(|(field, _)| *field == name);
        found.map(|(_, value)| *value).ok_or(format!("no {name}= in the case"))
    }

    fn bytes(&self, name: &str) -> Result<Vec<u8>, String> {
        let digits: Option<Vec<u32>> = self.get(name)?.chars().map(|c| c.to_digit(16)).collect();
        let digits = digits.ok_or(format!("{name}= is not hexadecimal"))?;
        if digits.len() % 2 == 1 {
            return Err(format!("{name}= ends in half a byte"));
        }
        Ok(digits.chunks(2).map(|pair| (pair[0] * 16 + pair[1]) as u8).collect())
    }

    fn lent(&self, name: &str) -> Result<Lent, String> {
        let wrong = || format!("{name}= is not length/fill with a length up to 16,777,216");
        let (length, fill) = self.get(name)?.split_once('/').ok_or_else(wrong)?;
        let length = length.parse().ok().filter(|&l: &usize| l <= 1 << 24).ok_or_else(wrong)?;
        let fill = u64::from_str_radix(fill, 16).map_err(|_| wrong())?;
        Ok(Lent::new(length, fill))
    }

    /// Chart, rule, marks and scratch.
    fn marking(&self) -> Result<(Vec<u8>, Vec<u8>, Lent, Lent), String> {
        Ok((self.bytes("chart")?, self.bytes("rule")?, self.lent("marks")?, self.lent("scratch")?))
    }

    fn number(&self, name: &str) -> Result<usize, String> {
        self.get(name)?.parse().map_err(|_| format!("{name}= is not a number"))
    }

    fn choice(&self) -> Result<Table, String> {
        match self.get("choice")? {
            "overview" => Ok(Table::Overview),
            "detail" => Ok(Table::Detail),
            _ => Err("choice= is neither overview nor detail".into()),
        }
    }
}

pub fn parse(line: &str) -> Result<Case, String> {
    let mut words = line.split_whitespace();
    let call = words.next().unwrap_or("");
    let fields: Option<Vec<_>> = words.map(|word| word.split_once('=')).collect();
    let fields = Fields(fields.ok_or("a field of the case has no =")?);
    match call {
        "check" => {
            let (chart, rule, marks, scratch) = fields.marking()?;
            Ok(Case::Check { chart, rule, marks, scratch })
        }
        "count" => {
            let (chart, rule, marks, scratch) = fields.marking()?;
            Ok(Case::Count { chart, rule, marks, scratch })
        }
        "kind" => Ok(Case::Kind { rule: fields.bytes("rule")? }),
        "map" => Ok(Case::Map {
            detail: fields.bytes("detail")?,
            overview: fields.bytes("overview")?,
            map: fields.bytes("map")?,
        }),
        "row" => Ok(Case::Row {
            overview: fields.bytes("overview")?,
            detail: fields.bytes("detail")?,
            choice: fields.choice()?,
            n: fields.number("n")?,
            t: fields.number("t")?,
        }),
        "show" => {
            let (chart, rule, marks, scratch) = fields.marking()?;
            let (node, state, output) = (fields.number("node")?, fields.number("state")?, fields.lent("output")?);
            Ok(Case::Show { chart, rule, marks, scratch, node, state, output })
        }
        "read" => Ok(Case::Read { text: fields.bytes("text")?, output: fields.lent("output")? }),
        "write" => Ok(Case::Write { rule: fields.bytes("rule")?, output: fields.lent("output")? }),
        _ => Err(format!("unknown call {call:?} in the case")),
    }
}

#[cfg(test)]
mod tests {
    use super::{parse, text};
    use crate::random::{generate, typed};

    #[test]
    fn a_line_gives_its_case_back() {
        for number in 0..3_000 {
            for case in [generate::random(7, number), typed::random(7, number)] {
                assert_eq!(parse(&text(&case)), Ok(case));
            }
        }
    }

    #[test]
    fn other_lines_are_refused() {
        for line in [
            "",
            "chek",
            "kind",
            "kind rule",
            "kind rule=0",
            "kind rule=0g",
            "row n=1",
            "show chart= rule=",
            "count chart= rule=",
            "read text=",
            "read output=3/0",
            "write output=3/0",
        ] {
            assert!(parse(line).is_err(), "{line}");
        }
    }
}
