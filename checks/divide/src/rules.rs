//! The two rules for the sources.
//!
//! 1. From the step to the next address and from the comparison of the expected address with a sector's nothing is
//!    divided, not even by a power of two, and nothing is called whose source is not here.
//! 2. From every exported call that a drive makes what is divided is divided by a number that is written out and is a
//!    power of two. The bench, sealing and the parity check are left out: no running sector and no host word reaches
//!    them.

use crate::body::{Call, Division, Form};
use crate::items::{Item, What};
use crate::program::{Program, Target};
use crate::reach::Reach;
use crate::tree::Tree;
use std::collections::BTreeSet;
use std::fmt;

/// Crate and title of the functions that rule 1 starts from.
const ROOTS: [(&str, &str); 3] =
    [("sector", "Address::next"), ("sector", "address_holds"), ("exports", "cdrom_next_address")];
/// Exported calls from which rule 2 does not start.
const NOT_OF_A_DRIVE: [&str; 4] = ["cdrom_bench", "cdrom_parity", "cdrom_seal", "cdrom_seal_xa"];
/// Parts of names of functions that divide. A division by a constant in the kit is seen neither here nor in the archive
/// otherwise.
const DIVIDING_WORDS: [&str; 6] = ["div", "divide", "mod", "quotient", "rem", "remainder"];

pub struct Sources {
    pub findings: Vec<Finding>,
    /// The full titles of what is reached from the roots of rule 1.
    pub from_roots: Vec<String>,
    /// The same from those of rule 2.
    pub from_calls: Vec<String>,
    /// How many exported calls rule 2 starts from.
    pub calls: usize,
    /// What they call of the kit: what that divides by a constant shows on neither side.
    pub kit: BTreeSet<String>,
}

#[derive(Clone, PartialEq, Eq, Debug)]
pub struct Finding {
    /// File and line; the crate, where a function is missing.
    pub place: String,
    pub function: String,
    pub fault: String,
    /// The calls from a root to the function.
    pub chain: String,
}

impl fmt::Display for Finding {
    fn fmt(&self, f: &mut fmt::Formatter) -> fmt::Result {
        write!(f, "{}: {}: {}", self.place, self.function, self.fault)?;
        if self.chain.is_empty() {
            return Ok(());
        }
        write!(f, " ({})", self.chain)
    }
}

/// Both rules on a tree.
pub fn check_sources(tree: &Tree) -> Result<Sources, String> {
    let program = Program::read(tree)?;
    let ((roots, no_roots), (calls, no_calls)) = (roots(&program), exported(&program));
    let (from_roots, from_calls) = (Reach::from(&program, &roots), Reach::from(&program, &calls));
    let divided = faults(&program, &from_roots, Rule::Nothing);
    let divided_oddly = faults(&program, &from_calls, Rule::PowersOfTwo);
    let findings = [no_roots, no_calls, divided, divided_oddly].concat();
    let titles = |reach: &Reach| {
        let items = reach.items().map(|item| &program.items[item]);
        items.filter(|item| item.what != What::Type).map(Item::full_title).collect()
    };
    Ok(Sources {
        findings,
        from_roots: titles(&from_roots),
        from_calls: titles(&from_calls),
        calls: calls.len(),
        kit: kit(&program, &from_calls),
    })
}

fn kit(program: &Program, reach: &Reach) -> BTreeSet<String> {
    let of_item = |place: usize| {
        let item = &program.items[place];
        let is_kit = |call: &&Call| matches!(program.target(item, call), Target::Kit | Target::Either(_));
        let calls = program.calls(item).filter(is_kit);
        calls.map(Call::told).collect::<Vec<_>>()
    };
    reach.items().flat_map(of_item).collect()
}

/// The roots of rule 1. From one that is missing nothing would be reached, and all would seem well.
fn roots(program: &Program) -> (Vec<usize>, Vec<Finding>) {
    let found = ROOTS.map(|(crate_name, title)| {
        let full_title = format!("{crate_name}::{title}");
        positions(program, |item| item.full_title() == full_title)
    });
    let lost = ROOTS.iter().zip(&found).filter(|(_, places)| places.is_empty());
    let findings = lost.map(|((crate_name, title), _)| missing(crate_name, title)).collect();
    (found.concat(), findings)
}

/// The roots of rule 2, of which there must be some too.
fn exported(program: &Program) -> (Vec<usize>, Vec<Finding>) {
    let calls = positions(program, |item| item.is_exported && !NOT_OF_A_DRIVE.contains(&item.name.as_str()));
    let findings =
        if calls.is_empty() { vec![missing("exports", "every exported call of a drive")] } else { Vec::new() };
    (calls, findings)
}

fn positions(program: &Program, is_meant: impl Fn(&Item) -> bool) -> Vec<usize> {
    (0..program.items.len()).filter(|place| is_meant(&program.items[*place])).collect()
}

fn missing(crate_name: &str, title: &str) -> Finding {
    Finding {
        place: format!("crates/{crate_name}"),
        function: title.to_string(),
        fault: "is missing, so that what it reaches cannot be looked at".to_string(),
        chain: String::new(),
    }
}

#[derive(Clone, Copy)]
enum Rule {
    Nothing,
    PowersOfTwo,
}

impl Rule {
    fn fault_of_division(self, division: &Division) -> Option<String> {
        let told = division.told();
        match self {
            Rule::Nothing => Some(format!("`{told}`, where nothing may be divided")),
            Rule::PowersOfTwo if division.is_by_power_of_two() => None,
            Rule::PowersOfTwo => Some(format!("`{told}`, not by a power of two that is written out")),
        }
    }

    fn fault_of_call(self, call: &Call, target: &Target) -> Option<String> {
        let told = call.told();
        match (target, self) {
            // Of a number it would be the standard library's, whatever methods of that name are here.
            (Target::Items(_), _) if call.form == Form::Method && is_of_a_division(&call.name) => {
                Some(format!("calls `{told}`, which divides by its name"))
            }
            (Target::Items(_), _) => None,
            (Target::Unknown, _) => {
                Some(format!("calls `{told}`, which is neither a function of the crates nor of the kit"))
            }
            (Target::Kit | Target::Either(_), Rule::Nothing) => {
                Some(format!("calls `{told}`, whose source is not here"))
            }
            (Target::Kit | Target::Either(_), Rule::PowersOfTwo) if is_of_a_division(&call.name) => {
                Some(format!("calls `{told}`, which divides by its name"))
            }
            (Target::Kit | Target::Either(_), Rule::PowersOfTwo) => None,
        }
    }
}

fn is_of_a_division(name: &str) -> bool {
    name.split('_').any(|word| DIVIDING_WORDS.contains(&word))
}

fn faults(program: &Program, reach: &Reach, rule: Rule) -> Vec<Finding> {
    let of_item = |place: usize| {
        let item = &program.items[place];
        let chain = reach.chain(program, place);
        let found = item_faults(program, item, rule).into_iter();
        found.map(move |(line, fault)| Finding {
            place: format!("{}:{line}", item.place.file),
            function: item.title(),
            fault,
            chain: chain.clone(),
        })
    };
    reach.items().flat_map(of_item).collect()
}

/// Line and text of each.
fn item_faults(program: &Program, item: &Item, rule: Rule) -> Vec<(usize, String)> {
    let divisions = item.body.divisions.iter().map(|division| (division.line, rule.fault_of_division(division)));
    let calls = program.calls(item).map(|call| (call.line, rule.fault_of_call(call, &program.target(item, call))));
    divisions.chain(calls).filter_map(|(line, fault)| Some((line, fault?))).collect()
}
