//! The list of crates, `crates.txt`: what each of them depends on.

use std::collections::{BTreeMap, BTreeSet};

/// What every crate may name besides its list.
const STANDARD: &str = "std";

pub struct Crates {
    dependencies: BTreeMap<String, Vec<String>>,
}

impl Crates {
    /// Lines are `NAME: DEP DEP ..`, a comment begins with `#`, and behind a name may stand what is made of the crate, as `staticlib`.
    pub fn read(text: &str) -> Result<Crates, String> {
        let mut dependencies = BTreeMap::new();
        for line in text.lines().map(without_comment).filter(|line| !line.is_empty()) {
            let (crate_text, rest) = line.split_once(':').ok_or(format!("crates.txt: `{line}` has no colon"))?;
            let name = crate_text.split_whitespace().next().ok_or(format!("crates.txt: `{line}` has no name"))?;
            let listed = rest.split_whitespace().map(str::to_string).collect();
            if dependencies.insert(name.to_string(), listed).is_some() {
                return Err(format!("crates.txt: {name} is there twice"));
            }
        }
        Ok(Crates { dependencies })
    }

    pub fn names(&self) -> impl Iterator<Item = &String> {
        self.dependencies.keys()
    }

    pub fn has(&self, name: &str) -> bool {
        self.dependencies.contains_key(name)
    }

    /// The crate, and those of the list that it depends on, directly or not.
    pub fn scope(&self, name: &str) -> BTreeSet<String> {
        let mut scope = BTreeSet::new();
        let mut waiting = vec![name.to_string()];
        while let Some(next) = waiting.pop() {
            let dependencies = self.dependencies.get(&next);
            if dependencies.is_some() && scope.insert(next) {
                waiting.extend(dependencies.into_iter().flatten().cloned());
            }
        }
        scope
    }

    /// A dependency that is not listed as a crate is the kit's, whose sources are not here.
    pub fn is_of_the_kit(&self, name: &str, dependency: &str) -> bool {
        let listed = self.dependencies.get(name).is_some_and(|names| names.iter().any(|name| name == dependency));
        dependency == STANDARD || (listed && !self.has(dependency))
    }
}

fn without_comment(line: &str) -> &str {
    line.split('#').next().unwrap_or_default().trim()
}

#[cfg(test)]
mod tests {
    use super::*;

    const LIST: &str =
        "# laws first\nlaws:\nslices: laws\nsector: slices bytes # and more\nexports staticlib: sector\n";

    #[test]
    fn a_scope_goes_through_dependencies() {
        let crates = Crates::read(LIST).unwrap();
        let scope: Vec<_> = crates.scope("exports").into_iter().collect();
        assert_eq!(scope, ["exports", "laws", "sector", "slices"]);
        assert_eq!(crates.scope("laws").len(), 1);
    }

    #[test]
    fn what_is_not_listed_is_the_kits() {
        let crates = Crates::read(LIST).unwrap();
        assert!(crates.is_of_the_kit("sector", "bytes") && crates.is_of_the_kit("laws", "std"));
        assert!(!crates.is_of_the_kit("sector", "slices") && !crates.is_of_the_kit("exports", "bytes"));
    }

    #[test]
    fn a_line_that_is_none_and_a_crate_that_is_there_twice() {
        assert!(Crates::read("laws\n").is_err());
        assert!(Crates::read(": laws\n").is_err());
        assert!(Crates::read("laws:\nlaws: bytes\n").is_err());
    }
}
