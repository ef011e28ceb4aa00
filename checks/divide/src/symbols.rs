//! What `nm -P` prints: the symbols of each member of an archive, a line each.

use std::collections::BTreeSet;

/// The letters of symbols that are asked for: plain, and weak of both kinds.
const ASKED: [&str; 3] = ["U", "v", "w"];
/// Letters that are small though other members see the symbol.
const SMALL_AND_SEEN: [&str; 2] = ["i", "u"];
/// The letters of code: plain, and weak.
const CODE: [&str; 2] = ["T", "W"];

#[derive(Default)]
pub struct Symbols {
    asked: BTreeSet<String>,
    /// What other members and callers see.
    defined: BTreeSet<String>,
    code: BTreeSet<String>,
}

impl Symbols {
    pub fn read(text: &str) -> Symbols {
        let mut symbols = Symbols::default();
        for line in text.lines() {
            let mut words = line.split_whitespace();
            if let (Some(name), Some(letter)) = (words.next(), words.next()) {
                symbols.note(name, letter);
            }
        }
        symbols
    }

    fn note(&mut self, name: &str, letter: &str) {
        if ASKED.contains(&letter) {
            self.asked.insert(name.to_string());
        } else if letter.starts_with(char::is_uppercase) || SMALL_AND_SEEN.contains(&letter) {
            self.defined.insert(name.to_string());
        }
        if CODE.contains(&letter) {
            self.code.insert(name.to_string());
        }
    }

    pub fn has_code_of(&self, name: &str) -> bool {
        self.code.contains(name)
    }

    /// What a member asks for and no member has.
    pub fn open(&self) -> impl Iterator<Item = &String> {
        self.asked.difference(&self.defined)
    }
}

#[cfg(test)]
mod tests {
    use super::*;

    #[test]
    fn what_one_member_asks_for_another_may_have() {
        let printed = "libcdrom.a[a.o]:\ncdrom_judge T 0 10\nhelper U         \nmemset U\nlocal U\nmaybe w\n\n\
            libcdrom.a[b.o]:\nhelper T 0 4\nlocal t 10 4\ntable R 0 8\n";
        let symbols = Symbols::read(printed);
        assert_eq!(symbols.open().collect::<Vec<_>>(), ["local", "maybe", "memset"]);
        assert!(symbols.has_code_of("cdrom_judge") && symbols.has_code_of("helper"));
        assert!(!symbols.has_code_of("local") && !symbols.has_code_of("table") && !symbols.has_code_of("memset"));
    }
}
