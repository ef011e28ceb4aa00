//! Every division of the sources, with the exported calls and the programs that may reach it.

use crate::body::Division;
use crate::items::Item;
use crate::program::Program;
use crate::reach::Reach;
use crate::tree::Tree;
use std::fmt::Write;

const HEADING: &str =
    "Divisions by file and function, with their lines. The letter tells what may reach the function;\n\
    a call counts for every function of its name, so that less may.\n";

/// What the names of the chip's calls begin with.
const CHIP: &str = "cdrom_chip_";

/// An exported call or a program, and what it reaches.
struct Root {
    name: String,
    reach: Reach,
}

/// The sets of roots that reach something, each with a letter, in the order in which they come.
#[derive(Default)]
struct Sets {
    told: Vec<String>,
}

/// The listing of a tree.
pub fn list(tree: &Tree) -> Result<String, String> {
    let program = Program::read(tree)?;
    let roots = roots(&program);
    let (mut sets, mut rows, mut file) = (Sets::default(), String::new(), "");
    for (place, item) in program.items.iter().enumerate().filter(|(_, item)| !item.body.divisions.is_empty()) {
        if item.place.file != file {
            file = &item.place.file;
            rows += &format!("\n{file}\n");
        }
        let letter = sets.letter(told(&roots, place));
        rows += &format!("  {}: {} [{letter}]\n", item.title(), divisions(&item.body.divisions));
    }
    Ok(format!("{HEADING}\n{}{rows}", sets.text()))
}

/// The exported calls, then the programs.
fn roots(program: &Program) -> Vec<Root> {
    let is_main = |item: &Item| item.name == "main" && item.owner.is_none();
    let calls = program.items.iter().enumerate().filter(|(_, item)| item.is_exported);
    let calls = calls.map(|(place, item)| (place, item.name.clone()));
    let programs = program.items.iter().enumerate().filter(|(_, item)| is_main(item));
    let programs = programs.map(|(place, item)| (place, format!("program {}", item.place.crate_name)));
    let root = |(place, name)| Root { name, reach: Reach::from(program, &[place]) };
    calls.chain(programs).map(root).collect()
}

/// The roots that reach an item: the calls of the chip at once, if most of them do, then the others.
fn told(roots: &[Root], item: usize) -> String {
    let (chip, others): (Vec<&Root>, Vec<&Root>) = roots.iter().partition(|root| root.name.starts_with(CHIP));
    let (reaching, left_out): (Vec<&Root>, Vec<&Root>) = chip.into_iter().partition(|root| root.reach.has(item));
    let others = others.into_iter().filter(|root| root.reach.has(item)).map(|root| root.name.clone());
    let mut parts: Vec<String> = if left_out.len() < reaching.len() {
        vec![all_but(&left_out)]
    } else {
        reaching.iter().map(|root| root.name.clone()).collect()
    };
    parts.extend(others);
    if parts.is_empty() {
        return "no exported call and no program".to_string();
    }
    parts.join(", ")
}

fn all_but(left_out: &[&Root]) -> String {
    let names: Vec<&str> = left_out.iter().map(|root| root.name.trim_start_matches(CHIP)).collect();
    if names.is_empty() {
        return format!("{CHIP}*");
    }
    format!("{CHIP}* (not {})", names.join(", "))
}

impl Sets {
    fn letter(&mut self, told: String) -> String {
        let known = self.told.iter().position(|other| *other == told);
        let place = known.unwrap_or(self.told.len());
        if known.is_none() {
            self.told.push(told);
        }
        letter(place)
    }

    fn text(&self) -> String {
        let mut text = String::new();
        for (place, told) in self.told.iter().enumerate() {
            writeln!(text, "{}: {told}", letter(place)).expect("a string takes all");
        }
        text
    }
}

/// A to Z, then A1 to Z1 and so on.
fn letter(place: usize) -> String {
    let letter = char::from(b'A' + (place % 26) as u8);
    match place / 26 {
        0 => letter.to_string(),
        round => format!("{letter}{round}"),
    }
}

/// Equal ones together, in the order in which they first come.
fn divisions(divisions: &[Division]) -> String {
    let mut groups: Vec<(String, Vec<usize>)> = Vec::new();
    for division in divisions {
        let told = division.told();
        match groups.iter_mut().find(|(other, _)| *other == told) {
            Some((_, lines)) => lines.push(division.line),
            None => groups.push((told, vec![division.line])),
        }
    }
    groups.into_iter().map(|(told, lines)| format!("{told} ({})", place(&lines))).collect::<Vec<_>>().join(", ")
}

fn place(lines: &[usize]) -> String {
    let (first, last) = (lines[0], lines[lines.len() - 1]);
    match lines.len() {
        1 => format!("line {first}"),
        count if first == last => format!("{count} times, line {first}"),
        count => format!("{count} times, lines {first} to {last}"),
    }
}
