//! The functions, constants and types of a file. What is not known is an error, and so is a division where no function
//! stands: nothing is passed over in silence.

use crate::block::{self, Block, OfTrait};
use crate::body::{is_division, Body};
use crate::plain;
use crate::reader::Reader;
use crate::tokens::{Kind, Token};
use std::collections::BTreeSet;
use std::ops::Range;

const CLAUSES: [&str; 3] = ["requires", "ensures", "ghost"];
/// Items, which no body has; a constant or a `static` in one is read as its code.
const NOT_IN_CODE: [&str; 9] = ["enum", "fn", "impl", "macro_rules", "mod", "struct", "trait", "type", "use"];
/// The same, and the type of a function, for what is no code: there `impl` is a type too.
const NOT_IN_TYPES: [&str; 4] = ["fn", "macro_rules", "mod", "use"];
/// Traits of the language, which are known without a `use`.
const OF_THE_LANGUAGE: &str = "AsMut AsRef Clone Copy Default DoubleEndedIterator Drop Eq ExactSizeIterator Extend Fn \
    FnMut FnOnce From FromIterator Into IntoIterator Iterator Ord PartialEq PartialOrd ToOwned ToString TryFrom TryInto";

/// Where a file stands.
#[derive(Clone)]
pub struct Place {
    pub file: String,
    pub crate_name: String,
    /// The file's name, or in the crate's first file the crate's.
    pub module: String,
}

#[derive(Clone, Copy, PartialEq, Eq, Debug)]
pub enum What {
    Function,
    /// Its value counts as code of what names it.
    Constant,
    /// It has no code. What names it may call what the language calls by itself: of operators, conversions, loops, and
    /// at the end of a value.
    Type,
}

pub struct Item {
    pub place: Place,
    pub what: What,
    /// The type whose method it is, or the trait.
    pub owner: Option<String>,
    /// Where it stands in a trait or in an `impl` of one.
    pub of_trait: Option<OfTrait>,
    pub name: String,
    pub is_exported: bool,
    pub body: Body,
}

/// The names that a `use` makes known, and the first word of its path.
pub struct Import {
    pub head: String,
    pub names: Vec<String>,
    pub is_public: bool,
}

pub struct Source {
    pub place: Place,
    pub items: Vec<Item>,
    pub imports: Vec<Import>,
    pub traits: BTreeSet<String>,
    /// Names of which it is not known what type they stand for: of traits, parameters, and what `type` names.
    pub open: BTreeSet<String>,
}

impl Place {
    /// Of a path as `crates/NAME/src/MODULE.rt`.
    pub fn of(file: &str) -> Result<Place, String> {
        let parts: Vec<&str> = file.split('/').collect();
        let ["crates", crate_name, "src", .., last] = parts[..] else {
            return Err(format!("{file}: not a file of a crate"));
        };
        let module = match last.trim_end_matches(".rt") {
            "lib" | "main" if parts.len() == 4 => crate_name,
            "mod" => parts[parts.len() - 2],
            stem => stem,
        };
        Ok(Place { file: file.to_string(), crate_name: crate_name.to_string(), module: module.to_string() })
    }
}

impl Item {
    /// `name` or `Type::name`.
    pub fn title(&self) -> String {
        match &self.owner {
            Some(owner) => format!("{owner}::{}", self.name),
            None => self.name.clone(),
        }
    }

    /// The title behind the crate's name.
    pub fn full_title(&self) -> String {
        format!("{}::{}", self.place.crate_name, self.title())
    }
}

impl Source {
    pub fn read(file: &str, text: &str) -> Result<Source, String> {
        let (traits, open) = (BTreeSet::new(), BTreeSet::new());
        let source = Source { place: Place::of(file)?, items: Vec::new(), imports: Vec::new(), traits, open };
        let mut parser = Parser { reader: Reader::new(file, text)?, source };
        parser.file_attributes()?;
        while !parser.reader.is_at_end() {
            parser.item(None)?;
        }
        Ok(parser.source)
    }
}

struct Parser<'t> {
    reader: Reader<'t>,
    source: Source,
}

impl<'t> Parser<'t> {
    /// Those of the whole file, before its first item.
    fn file_attributes(&mut self) -> Result<(), String> {
        while self.reader.skip_both("#", "!") {
            self.reader.group()?;
        }
        Ok(())
    }

    fn item(&mut self, block: Option<&Block>) -> Result<(), String> {
        let attributes = self.attributes()?;
        let is_public = self.visibility()?;
        match self.reader.peek() {
            "const" | "static" => self.constant(block),
            "fn" => self.function(block, attributes.contains("no_mangle")),
            "type" => self.alias(block),
            "ghost" if self.reader.peek_second() == "use" => self.ghost_import(),
            "ghost" if block.is_some() => self.ghost_member(),
            "impl" if block.is_none() => self.implementation(),
            "trait" if block.is_none() => self.declared_trait(),
            "use" if block.is_none() => self.import(is_public),
            "mod" if block.is_none() => self.module(),
            "struct" | "enum" if block.is_none() => self.declaration(attributes.contains("Default")),
            other => Err(self.reader.trouble(&format!("`{other}` begins no item that is known"))),
        }
    }

    /// The words of those that stand before an item.
    fn attributes(&mut self) -> Result<BTreeSet<String>, String> {
        let mut words = BTreeSet::new();
        while self.reader.skip("#") {
            let inside = self.reader.group()?;
            words.extend(self.reader.tokens(inside).iter().map(|token| token.text.to_string()));
        }
        Ok(words)
    }

    /// `pub`, `pub(crate)`, `extern "C"`, and `const` and `final` of a function.
    fn visibility(&mut self) -> Result<bool, String> {
        let is_public = self.reader.skip("pub");
        if is_public && self.reader.peek() == "(" {
            self.reader.group()?;
        }
        if self.reader.peek_second() == "fn" && ["const", "final"].contains(&self.reader.peek()) {
            self.reader.step();
        }
        if self.reader.skip("extern") {
            self.reader.expect("\"C\"")?;
        }
        Ok(is_public)
    }

    /// The clauses between the signature and the body are no code.
    fn function(&mut self, block: Option<&Block>, is_exported: bool) -> Result<(), String> {
        self.reader.expect("fn")?;
        let name = self.function_name()?;
        let start = self.reader.place();
        self.parameters()?;
        let ends = ["{", CLAUSES[0], CLAUSES[1], CLAUSES[2], ";"];
        let may_have_no_body = block.is_some_and(|block| block.is_trait);
        self.reader.up_to(if may_have_no_body { &ends } else { &ends[..4] })?;
        let signature = start..self.reader.place();
        self.refuse_code(signature.clone())?;
        while CLAUSES.contains(&self.reader.peek()) {
            self.clause()?;
        }
        let has_none = may_have_no_body && self.reader.skip(";");
        let code = if has_none { start..start } else { self.reader.group()? };
        let mut body = self.body(signature, code)?;
        body.types.extend(block.map(|block| block.owner.clone()));
        self.push(What::Function, block, name, body);
        self.source.items.last_mut().expect("it was pushed").is_exported = is_exported;
        Ok(())
    }

    /// With a capital its calls would look like values that are built.
    fn function_name(&mut self) -> Result<&'t str, String> {
        let name = self.reader.name()?;
        if name.starts_with(char::is_uppercase) {
            return Err(self.reader.trouble(&format!("the function {name} begins with a capital")));
        }
        Ok(name)
    }

    /// By its capital a type is known where it is named.
    fn type_name(&mut self) -> Result<&'t str, String> {
        let name = self.reader.name()?;
        if !name.starts_with(char::is_uppercase) {
            return Err(self.reader.trouble(&format!("the type {name} begins with no capital")));
        }
        Ok(name)
    }

    /// Of a type, a function, a trait or an `impl`.
    fn parameters(&mut self) -> Result<(), String> {
        let angles = self.reader.angles()?;
        self.refuse_code(angles.clone())?;
        self.source.open.extend(block::parameters(self.reader.tokens(angles)));
        Ok(())
    }

    fn clause(&mut self) -> Result<(), String> {
        self.reader.step();
        self.reader.skip("*");
        if self.reader.is_at_name() {
            self.reader.step();
        }
        self.reader.skip(":");
        self.ghost_group()
    }

    /// What is no code, in braces.
    fn ghost_group(&mut self) -> Result<(), String> {
        let inside = self.reader.group()?;
        let refused = plain::refuse_long_strings(self.reader.tokens(inside));
        refused.map_err(|line| self.long_string(line))
    }

    fn long_string(&self, line: usize) -> String {
        self.reader.trouble(&format!("in line {line}, in a clause, a string begins that does not end in its line"))
    }

    fn constant(&mut self, block: Option<&Block>) -> Result<(), String> {
        self.reader.step();
        if self.reader.peek() == "mut" {
            return Err(self.reader.trouble("a `static` that is written is not followed"));
        }
        let name = self.reader.name()?;
        let value = self.reader.up_to(&[";"])?;
        let body = self.body(value.start..value.start, value)?;
        self.push(What::Constant, block, name, body);
        self.reader.expect(";")
    }

    /// Also a type that belongs to a trait, so that what names it may mean any of them.
    fn alias(&mut self, block: Option<&Block>) -> Result<(), String> {
        self.reader.expect("type")?;
        let name = self.type_name()?;
        self.parameters()?;
        let meant = self.reader.up_to(&[";"])?;
        self.refuse_code(meant.clone())?;
        self.source.open.insert(name.to_string());
        let body = Body::of_types(self.reader.tokens(meant));
        self.push(What::Type, block, name, body);
        self.reader.expect(";")
    }

    fn push(&mut self, what: What, block: Option<&Block>, name: &str, body: Body) {
        self.source.items.push(Item {
            place: self.source.place.clone(),
            what,
            owner: block.map(|block| block.owner.clone()),
            of_trait: block.and_then(|block| block.of_trait.clone()),
            name: name.to_string(),
            is_exported: false,
            body,
        });
    }

    fn implementation(&mut self) -> Result<(), String> {
        self.reader.expect("impl")?;
        self.parameters()?;
        let front = self.reader.up_to(&["{"])?;
        self.refuse_code(front.clone())?;
        let block = Block::of_impl(self.reader.tokens(front));
        let block = block.ok_or_else(|| self.reader.trouble("what an `impl` before this is of cannot be told"))?;
        self.items_of(&block)
    }

    fn declared_trait(&mut self) -> Result<(), String> {
        self.reader.expect("trait")?;
        let name = self.type_name()?;
        if OF_THE_LANGUAGE.split_whitespace().any(|other| other == name) {
            return Err(self.reader.trouble(&format!("the trait {name} has the name of one of the language")));
        }
        self.parameters()?;
        let front = self.reader.up_to(&["{"])?;
        self.refuse_code(front)?;
        self.source.traits.insert(name.to_string());
        self.source.open.insert(name.to_string());
        self.items_of(&Block::of_trait(name))
    }

    fn items_of(&mut self, block: &Block) -> Result<(), String> {
        self.reader.expect("{")?;
        while !self.reader.skip("}") {
            self.item(Some(block))?;
        }
        Ok(())
    }

    /// What a proof uses is no code, and may have any signs.
    fn ghost_import(&mut self) -> Result<(), String> {
        self.reader.expect("ghost")?;
        self.reader.expect("use")?;
        self.reader.up_to(&[";"])?;
        self.reader.expect(";")
    }

    /// Of a trait or an `impl` of one: its type, its value, or both.
    fn ghost_member(&mut self) -> Result<(), String> {
        self.reader.expect("ghost")?;
        self.reader.name()?;
        while !self.reader.skip(";") {
            if !self.reader.skip(":") {
                self.reader.expect("=")?;
            }
            self.ghost_group()?;
        }
        Ok(())
    }

    /// A name that is changed, or names that are not told, could hide a call.
    fn import(&mut self, is_public: bool) -> Result<(), String> {
        self.reader.expect("use")?;
        let head = self.reader.peek().to_string();
        let path = self.reader.up_to(&[";"])?;
        let tokens = self.reader.tokens(path);
        if tokens.iter().any(|token| ["as", "*"].contains(&token.text)) {
            return Err(self.reader.trouble("a `use` with `as` or `*` is not followed"));
        }
        let is_last = |place: usize| tokens.get(place + 1).is_none_or(|next| next.text != "::");
        let is_in_a_type = |place: usize| !is_last(place) && tokens[place].text.starts_with(char::is_uppercase);
        if (0..tokens.len()).any(is_in_a_type) {
            return Err(self.reader.trouble("a `use` of what a type has is not followed"));
        }
        let names = tokens.iter().enumerate().filter(|(place, token)| token.kind == Kind::Name && is_last(*place));
        let names = names.map(|(_, token)| token.text.to_string()).collect();
        self.source.imports.push(Import { head, names, is_public });
        self.reader.expect(";")
    }

    fn module(&mut self) -> Result<(), String> {
        self.reader.expect("mod")?;
        self.reader.name()?;
        self.reader.expect(";")
    }

    /// A struct or an enum: it has no code but what is derived.
    fn declaration(&mut self, has_default: bool) -> Result<(), String> {
        let is_enum = self.reader.skip("enum") || !self.reader.skip("struct");
        let name = self.type_name()?;
        let (start, line) = (self.reader.place(), self.reader.line());
        self.parameters()?;
        self.reader.up_to(&[";", "{"])?;
        if self.reader.peek() == "{" {
            self.reader.group()?;
        } else {
            self.reader.step();
        }
        let inside = start..self.reader.place();
        self.refuse_code(inside.clone())?;
        let types = Body::of_types(&self.code(inside)?);
        if has_default {
            let body = if is_enum { Body::default() } else { types.defaults(line) };
            let block = Block { owner: name.to_string(), of_trait: None, is_trait: false };
            self.push(What::Function, Some(&block), "default", body);
        }
        self.push(What::Type, None, name, types);
        Ok(())
    }

    /// The body of a function, or the value of a constant.
    fn body(&self, signature: Range<usize>, code: Range<usize>) -> Result<Body, String> {
        let code = self.code(code)?;
        self.refuse(&code, &NOT_IN_CODE)?;
        Ok(Body::read(self.reader.tokens(signature), &code))
    }

    fn code(&self, range: Range<usize>) -> Result<Vec<Token<'t>>, String> {
        plain::code(self.reader.tokens(range)).map_err(|line| self.long_string(line))
    }

    /// For what is not looked at as code.
    fn refuse_code(&self, range: Range<usize>) -> Result<(), String> {
        let code = self.code(range)?;
        if code.iter().any(is_division) {
            return Err(self.reader.trouble("a division before this stands in no function and no constant"));
        }
        self.refuse(&code, &NOT_IN_TYPES)
    }

    fn refuse(&self, code: &[Token], words: &[&str]) -> Result<(), String> {
        let found = code.iter().find(|token| words.contains(&token.text));
        found.map_or(Ok(()), |token| Err(self.reader.trouble(&format!("`{}` inside what ends here", token.text))))
    }
}

#[cfg(test)]
mod tests {
    use super::*;
    use crate::body::Division;

    fn source(text: &str) -> Source {
        Source::read("crates/sector/src/header.rt", text).unwrap()
    }

    fn trouble(text: &str) -> String {
        Source::read("crates/sector/src/header.rt", text).err().unwrap()
    }

    #[test]
    fn places() {
        let module = |file: &str| Place::of(file).map(|place| place.module).ok();
        assert_eq!(module("crates/sector/src/lib.rt").as_deref(), Some("sector"));
        assert_eq!(module("crates/bench/src/main.rt").as_deref(), Some("bench"));
        assert_eq!(module("crates/sector/src/a/header.rt").as_deref(), Some("header"));
        assert_eq!(module("crates/sector/src/a/mod.rt").as_deref(), Some("a"));
        assert_eq!(module("crates/sector/specs/Address.rt"), None);
    }

    #[test]
    fn functions_with_contracts() {
        let text = "
            #![tactic(auto)]
            ghost use Prim.Native.Nat.{_/_, _%_};
            use super::Address;
            // a / b
            impl Address {
                pub fn next(self, a: [u8; 3]) -> [u8; 4]
                    requires bound { ⌜ { self / 10 } % 3 ≡ 'a ⌝ }
                    ensures* told { λ r. ⌜ r ≡ f(self) ⌝ }
                    ensures { result ≡ f(self) }
                { g(b\"/\") }
            }
            #[no_mangle]
            pub extern \"C\" fn cdrom_next_address(a: &mut [u8]) { a.next(); }
            pub(crate) fn plain() {}";
        let items = source(text).items;
        let told: Vec<_> = items.iter().map(|item| (item.full_title(), item.is_exported)).collect();
        let expected =
            [("sector::Address::next", false), ("sector::cdrom_next_address", true), ("sector::plain", false)];
        assert_eq!(told, expected.map(|(title, is_exported)| (title.to_string(), is_exported)));
        assert!(items.iter().all(|item| item.body.divisions.is_empty()));
        assert_eq!(items[0].body.calls.iter().map(|call| call.name.as_str()).collect::<Vec<_>>(), ["g"]);
    }

    #[test]
    fn constants_are_items_with_a_body() {
        let items = source("pub const HALF: [u8; 2] = [75 / 2, 0];\nfn f() { HALF }").items;
        assert!(items[0].what == What::Constant && items[0].name == "HALF");
        assert_eq!(items[0].body.divisions.len(), 1);
        assert!(items[1].body.names.contains("HALF"));
    }

    #[test]
    fn imports() {
        let imports = source("pub use bytes::scan::find;\nuse slices::{equal, more::fill};").imports;
        assert!(imports[0].is_public && !imports[1].is_public);
        assert_eq!((imports[0].head.as_str(), &imports[0].names[..]), ("bytes", &["find".to_string()][..]));
        assert_eq!((imports[1].head.as_str(), imports[1].names.join(" ")), ("slices", "equal fill".to_string()));
    }

    /// Title, kind, trait and calls of each.
    fn told(text: &str) -> Vec<String> {
        let told = |item: &Item| {
            let of_trait = item.of_trait.as_ref().map_or("none", |of_trait| of_trait.name.as_str());
            let calls: Vec<&str> = item.body.calls.iter().map(|call| call.name.as_str()).collect();
            format!("{} {:?} {of_trait} {}", item.title(), item.what, calls.join(" "))
        };
        source(text).items.iter().map(|item| told(item).trim_end().to_string()).collect()
    }

    #[test]
    fn generic_functions_and_types() {
        let text = "
            pub struct Sums<const N: usize> where A: B { pub plain: [u8; N], ghost some: { N / 2 < N } }
            impl<'a, const N: usize> Sums<N> {
                pub fn only<F: Fn(u8) -> u8, T>(&self, f: F, g: impl Fn(T)) -> [u8; N] { f(self.a / 3) }
            }
            const fn plain<const N: usize>(bits: [u16; N]) where A: B requires few { N % 16 ≡ N } { g::<N>() }
            struct Unit;
            struct Pair(pub u8, u8);";
        let expected = ["Sums Type none", "Sums::only Function none f", "plain Function none g", "Unit Type none"];
        assert_eq!(told(text)[..4], expected);
        let source = source(text);
        assert_eq!(source.open.into_iter().collect::<String>(), "FNT");
        assert_eq!(source.items[1].body.divisions.len(), 1);
        assert!(source.items[1].body.callable.contains("f"));
    }

    #[test]
    fn traits_and_their_impls() {
        let text = "
            trait Figure: Copy {
                ghost area: { Self → ℕ } = { λ s. s / 2 };
                type Unit: Copy;
                const SIDES: u16;
                fn size(&self) -> u16 ensures { result ≡ area self.now / 1 };
                fn half(&self) -> u16 { g(self.size() / 2) }
                final fn third(&self);
            }
            impl<const N: usize> Figure for Strip<N> {
                ghost area = { λ s. 4 * s.0 / 2 };
                type Unit = u8;
                const SIDES: u16 = h(4);
                #[tactic(auto, unfolding(crate::specs::Layout::layout))]
                fn size(&self) -> u16 { 4 }
            }";
        let expected = [
            "Figure::Unit Type Figure",
            "Figure::SIDES Constant Figure",
            "Figure::size Function Figure",
            "Figure::half Function Figure g size",
            "Figure::third Function Figure",
            "Strip::Unit Type Figure",
            "Strip::SIDES Constant Figure h",
            "Strip::size Function Figure",
        ];
        assert_eq!(told(text), expected);
        let source = source(text);
        assert_eq!(source.traits.into_iter().collect::<Vec<_>>(), ["Figure"]);
        assert_eq!(source.open.into_iter().collect::<Vec<_>>(), ["Figure", "N", "Unit"]);
    }

    #[test]
    fn statics_and_other_names_of_types() {
        let items = source("static A: [B; 2] = [7 / 2, f()];\ntype C<'a> = &'a [D];").items;
        assert_eq!((items[0].what, items[0].body.divisions.len(), items[0].body.calls.len()), (What::Constant, 1, 1));
        assert!(items[0].body.types.contains("B"));
        assert_eq!(
            (items[1].what, items[1].body.types.iter().cloned().collect::<String>()),
            (What::Type, "D".to_string())
        );
    }

    #[test]
    fn what_is_derived() {
        let default = |text: &str| told(text).into_iter().find(|item| item.contains("default"));
        let of_struct = default("#[derive(Clone, Default)] struct A { a: B, b: [C; 2], c: u8 }");
        assert_eq!(of_struct.as_deref(), Some("A::default Function none default default"));
        let of_enum = default("#[derive(Default)] enum A { #[default] B, C }");
        assert_eq!(of_enum.as_deref(), Some("A::default Function none"));
        assert_eq!(default("#[derive(Clone)] struct A;"), None);
    }

    #[test]
    fn attributes_and_clauses_inside_a_body() {
        let text = "fn f() { #[tactic(using(a(b)))] let g = |x: u8| requires { x / 2 } { h(x) }; g(c % 3) }";
        let body = &source(text).items[0].body;
        assert_eq!(body.calls.iter().map(|call| call.name.as_str()).collect::<Vec<_>>(), ["h", "g"]);
        assert_eq!(body.divisions.iter().map(Division::told).collect::<Vec<_>>(), ["% 3"]);
    }

    #[test]
    fn what_is_not_known_is_an_error() {
        assert!(trouble("\nunion A {}").starts_with("crates/sector/src/header.rt:2: `union`"));
        assert!(trouble("use a::b as c;").contains("is not followed"));
        assert!(trouble("fn f() {}\n#![tactic(auto)]").contains("`!` stands where a bracket must be"));
        assert!(trouble("use a::*;").contains("is not followed"));
        assert!(trouble("mod a { fn f() {} }").contains("`{` stands where `;` must be"));
        assert!(trouble("use a::Kind::Mode1;").contains("is not followed"));
        assert!(trouble("impl A for B where C: for<'a> D<'a> {}").contains("cannot be told"));
        assert!(trouble("trait From {}").contains("the name of one of the language"));
        assert!(trouble("struct a;").contains("begins with no capital"));
        assert!(trouble("static mut A: u8 = 0;").contains("is not followed"));
        assert!(trouble("macro_rules! a { () => {} }").contains("begins no item"));
        assert!(trouble("fn f();").contains("`;` stands where"));
        assert!(trouble("fn f() {").contains("is never closed"));
        assert!(trouble("fn Halve(n: u8) { n / 2 }").contains("begins with a capital"));
        assert!(trouble("fn f() decreases { a } {} }").contains("begins no item"));
    }

    #[test]
    fn code_where_it_is_not_looked_at_is_an_error() {
        assert!(trouble("struct A { a: [u8; 4 / 2] }").contains("a division before this"));
        assert!(trouble("fn f(a: [u8; 4 % 3]) {}").contains("a division before this"));
        assert!(trouble("fn f(g: fn(u8) -> u8) {}").contains("`fn` inside"));
        assert!(trouble("impl A for [u8; 4 / 2] {}").contains("a division before this"));
        assert!(trouble("type A = [u8; 4 / 2];").contains("a division before this"));
        assert!(trouble("fn f<const N: usize = { 4 / 2 }>() {}").contains("a division before this"));
        assert!(trouble("fn f() { impl A { } }").contains("`impl` inside"));
        assert!(trouble("fn f() { type A = B; }").contains("`type` inside"));
        assert!(trouble("fn f() requires { \" } { a / 2 }\nfn g() { \" }").contains("does not end in its line"));
        assert!(trouble("fn f() { fn g() {} }").contains("`fn` inside"));
        assert!(trouble("fn f() { use a::b; }").contains("`use` inside"));
    }
}
