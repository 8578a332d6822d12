//! The program desk_why. Which of several runs it prints is free, so its text is judged and not compared.

use std::process::Output;

use oracle::{judge_why, why_text, CHART_READ, RULE_READ};

use crate::programs::files::Files;
use crate::programs::judge;

pub const WHY: &str = "desk_why";

/// Node and state that it is asked for; for some the text is written down, where one alone is right.
#[derive(Clone, Debug, PartialEq, Eq)]
pub struct Why {
    pub node: usize,
    pub state: usize,
    pub written: Option<String>,
}

impl Why {
    pub fn arguments(&self) -> [String; 2] {
        [self.node.to_string(), self.state.to_string()]
    }

    /// What it printed, or what is wrong with what it did.
    pub fn text(&self, files: &Files, ended: &Output) -> Result<String, String> {
        if let Some(what) = judge::badly_ended(ended) {
            return Err(what);
        }
        let text = String::from_utf8_lossy(&ended.stdout).into_owned();
        let written = self.written.as_ref().unwrap_or(&text);
        let differs = judge::first_difference(("program", &ended.stdout), ("written", written.as_bytes()));
        differs.map_or(Ok(()), Err).and_then(|()| self.judged(files, &text))?;
        judge::other_complaint(WHY, ended, &ended.stdout).map_or(Ok(text), Err)
    }

    pub fn judged(&self, files: &Files, text: &str) -> Result<(), String> {
        judge_why(files.chart.read(CHART_READ), files.rule.read(RULE_READ), self.node, self.state, text)
    }

    /// A text that is right.
    pub fn example(&self, files: &Files) -> String {
        why_text(files.chart.read(CHART_READ), files.rule.read(RULE_READ), self.node, self.state)
    }
}

#[cfg(test)]
mod tests {
    use super::{Why, WHY};
    use crate::bytes::rule::{self, node, plain, A, LABEL, TRUE};
    use crate::named::expected::short;
    use crate::programs::complaint;
    use crate::programs::limits::files;
    use std::os::unix::process::ExitStatusExt;
    use std::process::{ExitStatus, Output};

    const RUN: &str = "0 at 0: 10 minutes to 1\n1 at 10: 4 minutes to 2\n2 at 14: above 13\n";

    fn right(why: &Why, wait_status: i32, stdout: &str) -> bool {
        let rule = rule::bytes(&[plain(TRUE, 0, 0), plain(LABEL, 2, 0), node(A, 1, 0, 1, 13)]);
        let stderr = complaint::of(WHY, stdout.as_bytes()).into_bytes();
        let ended = Output { status: ExitStatus::from_raw(wait_status), stdout: stdout.into(), stderr };
        why.text(&files(short().bytes(), rule), &ended).is_ok_and(|text| text == stdout)
    }

    #[test]
    fn only_a_right_run_and_status_0_are_right() {
        let why = Why { node: 2, state: 0, written: None };
        assert!(right(&why, 0, RUN));
        assert!(!right(&why, 256, RUN));
        for wrong in
            ["", "refused 60 at 0 3\n", &RUN.replace("10", "9"), &RUN.replace("above 13", "above 14"), &RUN[1..]]
        {
            assert!(!right(&why, 0, wrong), "{wrong}");
        }
        assert!(right(&Why { state: 1, ..why.clone() }, 0, "refused 60 at 0 3\n"));
        assert!(!right(&Why { written: Some(String::new()), ..why }, 0, RUN));
    }
}
