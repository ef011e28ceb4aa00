//! The tally kept along a script, and what a program printed for it held against the tally.

use crate::printed::Printed;
use crate::tally::Tally;
use std::fmt;

/// A line of the script, what was printed for it, and the tally around it.
pub struct Step<'a> {
    /// The line's number, from 1.
    pub number: usize,
    pub line: &'a [u8],
    pub printed: Printed,
    pub before: Tally,
    pub after: Tally,
}

/// The first line at which the program and the tally part.
#[derive(Debug, PartialEq, Eq)]
pub struct Trouble {
    /// Lines of the script that must be fed to see it.
    pub lines: usize,
    text: String,
}

impl fmt::Display for Trouble {
    fn fmt(&self, f: &mut fmt::Formatter) -> fmt::Result {
        write!(f, "line {}: {}", self.lines, self.text)
    }
}

/// The lines of a script. A last one counts without its newline too, unless it is empty.
pub fn lines_of(script: &[u8]) -> Vec<&[u8]> {
    let mut lines: Vec<&[u8]> = script.split(|&byte| byte == b'\n').collect();
    if lines.last().is_some_and(|line| line.is_empty()) {
        lines.pop();
    }
    lines
}

/// Keeps the tally to the end of the script; `see` is shown each line before its counts are compared.
pub fn keep<'a>(lines: &[&'a [u8]], printed: &[u8], mut see: impl FnMut(&Step<'a>)) -> Result<(), Trouble> {
    let mut answers = printed.split_inclusive(|&byte| byte == b'\n');
    let mut tally = Tally::default();
    for (place, line) in lines.iter().enumerate() {
        let trouble = |text| Trouble { lines: place + 1, text: format!("{}\n{text}", String::from_utf8_lossy(line)) };
        let step = take_step(tally, place + 1, line, answers.next()).map_err(trouble)?;
        see(&step);
        compare(&step).map_err(trouble)?;
        tally = step.after;
    }
    match answers.next() {
        None => Ok(()),
        Some(further) => Err(Trouble {
            lines: lines.len(),
            text: format!(
                "the script ends here, and the program goes on: {}",
                String::from_utf8_lossy(further).trim_end()
            ),
        }),
    }
}

fn take_step<'a>(before: Tally, number: usize, line: &'a [u8], answer: Option<&[u8]>) -> Result<Step<'a>, String> {
    let answer = answer.ok_or("the program printed no line for it")?;
    let whole = answer.strip_suffix(b"\n").ok_or("the program's line for it has no end")?;
    let printed = Printed::parse(whole).filter(|printed| printed.n == number as u64);
    let printed = printed.ok_or_else(|| format!("no answer to it: {}", String::from_utf8_lossy(whole)))?;
    let mut after = before;
    let noted = after.note(line, printed.answer, printed.out);
    noted.map_err(|impossible| format!("after {before}: {impossible}"))?;
    Ok(Step { number, line, printed, before, after })
}

fn compare(step: &Step) -> Result<(), String> {
    let (Printed { tcc, bufc, .. }, after) = (step.printed, &step.after);
    if (tcc, bufc) == (after.tcc(), after.bufc()) {
        return Ok(());
    }
    let held = if after.is_held() { "a bad sector held" } else { "none held" };
    let due = format!("tcc={} bufc={}", after.tcc(), after.bufc());
    Err(format!("the program has tcc={tcc} bufc={bufc}, and the tally {due}: {after}, {held}"))
}
