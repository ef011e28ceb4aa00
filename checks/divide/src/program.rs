//! All functions and constants of the crates, and what a call in one of them may reach.
//!
//! A call is taken to reach every function of its name in the crate and in what the crate depends on, unless the way it
//! is written rules one out for certain. So more may be reached than is, and never less.
//!
//! Some functions are called without their name, by an operator, a `for`, a `?`, at the end of a value, or from the kit:
//! those of an `impl` of a trait that is not of the crates. What names a type is taken to reach all of them that are
//! for the type, or for one that its declaration names: no other code can have a value of it.

use crate::block::OfTrait;
use crate::body::{Call, Form, ANY_TYPE};
use crate::crates::Crates;
use crate::items::{Item, Source, What};
use crate::tree::Tree;
use std::collections::{BTreeMap, BTreeSet};

/// Words that begin a path in the crate itself.
const OWN_HEADS: [&str; 3] = ["crate", "self", "super"];
/// Types of the language, whose functions are the standard library's.
const NUMBERS: [&str; 14] =
    ["bool", "char", "i128", "i16", "i32", "i64", "i8", "isize", "u128", "u16", "u32", "u64", "u8", "usize"];
/// The method that slices have of themselves.
const BUILT_IN: &str = "len";
/// Macros of the language that only put their arguments into code of their own, which is none that is called.
const READ_MACROS: [&str; 5] = ["matches", "prove", "prove_eq", "prove_ne", "unreachable"];
/// What makes a number of a lesser one, as `as` does.
const CAST: &str = "from";
/// The type of an `impl`, in its own code.
const OWN_TYPE: &str = "Self";

pub struct Program {
    pub items: Vec<Item>,
    crates: Crates,
    /// The crates that each crate sees.
    scopes: BTreeMap<String, BTreeSet<String>>,
    by_name: BTreeMap<String, Vec<usize>>,
    /// The modules of each crate.
    modules: BTreeSet<(String, String)>,
    /// Module and name of what a `pub use` hands on.
    handed_on: BTreeSet<(String, String)>,
    /// File and name of what is used from the kit.
    from_the_kit: BTreeSet<(String, String)>,
    /// Crate and name of each trait.
    traits: BTreeSet<(String, String)>,
    /// Names that may stand for any type.
    open: BTreeSet<String>,
    /// Items of each `impl` of a trait, by the names of the types that it is for.
    of_types: BTreeMap<String, Vec<usize>>,
}

/// What a call may reach.
#[derive(PartialEq, Eq, Debug)]
pub enum Target {
    /// Items of the program; none for what slices have of themselves.
    Items(Vec<usize>),
    /// These, or a function of the kit: by the type, which is not known here.
    Either(Vec<usize>),
    /// A function of the kit or the standard library, whose source is not here.
    Kit,
    /// Neither: a value that is called, a macro, or a name that nothing has.
    Unknown,
}

impl Program {
    pub fn read(tree: &Tree) -> Result<Program, String> {
        let crates = Crates::read(&tree.list)?;
        let sources: Result<Vec<Source>, String> =
            tree.files.iter().map(|(file, text)| Source::read(file, text)).collect();
        let sources = sources?;
        compare(&crates, &sources)?;
        refuse_kit_handed_on(&crates, &sources)?;
        Ok(Program::made(crates, sources))
    }

    fn made(crates: Crates, sources: Vec<Source>) -> Program {
        let scopes = crates.names().map(|name| (name.clone(), crates.scope(name))).collect();
        let places = sources.iter().map(|source| &source.place);
        let modules = places.map(|place| (place.crate_name.clone(), place.module.clone())).collect();
        let (handed_on, from_the_kit) = (handed_on(&sources), from_the_kit(&crates, &sources));
        let (traits, open) = (traits(&sources), sources.iter().flat_map(|source| source.open.clone()).collect());
        let items: Vec<Item> = sources.into_iter().flat_map(|source| source.items).collect();
        let by_name = places_by(&items, |item| vec![&item.name]);
        let of_types = places_by(&items, |item| item.of_trait.iter().flat_map(|of_trait| &of_trait.types).collect());
        Program { items, crates, scopes, by_name, modules, handed_on, from_the_kit, traits, open, of_types }
    }

    /// The functions that the calls of an item may reach; what it names without a call: constants, and functions that it
    /// may hand on as values, of which those of a type are named by a path; and the types that it names.
    pub fn reached_by(&self, item: &Item) -> BTreeSet<usize> {
        let calls = item.body.calls.iter().flat_map(|call| match self.target(item, call) {
            Target::Items(items) | Target::Either(items) => items,
            Target::Kit | Target::Unknown => Vec::new(),
        });
        let names = item.body.names.iter().flat_map(|name| self.seen(item, name, |other| other.owner.is_none()));
        let ends = item.body.ends_of_paths.iter().flat_map(|name| self.seen(item, name, |_| true));
        let types = item.body.types.iter().flat_map(|name| self.seen(item, name, |other| other.what == What::Type));
        calls.chain(names).chain(ends).chain(types).chain(self.of_type(item)).collect()
    }

    /// Of a type, what is called without its name, and the types that belong to it.
    fn of_type(&self, item: &Item) -> Vec<usize> {
        let all = self.of_types.get(&item.name).filter(|_| item.what == What::Type);
        let is_reached = |place: &usize| {
            let other = &self.items[*place];
            let is_named = other.of_trait.as_ref().is_some_and(|of_trait| self.is_of_the_crates(other, of_trait));
            let sees_it = self.scopes[&other.place.crate_name].contains(&item.place.crate_name);
            sees_it && (other.what == What::Type || !is_named)
        };
        all.into_iter().flatten().copied().filter(is_reached).collect()
    }

    /// Whether the trait of an `impl` is one that the crates declare: then its functions are called by their names.
    fn is_of_the_crates(&self, item: &Item, of_trait: &OfTrait) -> bool {
        let is_kit = self.is_of_the_kit(item, &of_trait.head) || self.is_from_the_kit(item, &of_trait.name);
        !is_kit && self.sees_trait(item, &of_trait.name)
    }

    fn sees_trait(&self, item: &Item, name: &str) -> bool {
        let scope = &self.scopes[&item.place.crate_name];
        scope.iter().any(|crate_name| self.traits.contains(&(crate_name.clone(), name.to_string())))
    }

    /// What the item calls, and of what it hands on without a call what is the kit's.
    pub fn calls<'i>(&'i self, item: &'i Item) -> impl Iterator<Item = &'i Call> {
        let values = item.body.values.iter().filter(|value| self.is_from_the_kit(item, &value.name));
        item.body.calls.iter().chain(values)
    }

    pub fn target(&self, caller: &Item, call: &Call) -> Target {
        match call.form {
            Form::Method => self.method(caller, &call.name),
            Form::Function if call.path.is_empty() => self.free_function(caller, &call.name),
            Form::Function => self.function_by_path(caller, call),
            Form::Other => self.macro_or_value(caller, &call.name),
        }
    }

    fn method(&self, caller: &Item, name: &str) -> Target {
        let methods = self.methods(caller, name);
        if methods.is_empty() && name != BUILT_IN {
            return Target::Kit;
        }
        Target::Items(methods)
    }

    /// A value that is called, as a closure, reaches nothing by itself: what it does is reached where it is made.
    fn free_function(&self, caller: &Item, name: &str) -> Target {
        if self.is_from_the_kit(caller, name) {
            return Target::Kit;
        }
        let functions = self.free_functions(caller, name);
        if functions.is_empty() && !caller.body.callable.contains(name) {
            return Target::Unknown;
        }
        Target::Items(functions)
    }

    fn macro_or_value(&self, caller: &Item, name: &str) -> Target {
        let is_read = |name: &str| READ_MACROS.contains(&name) && !self.is_from_the_kit(caller, name);
        if name.strip_suffix('!').is_some_and(is_read) {
            return Target::Items(Vec::new());
        }
        Target::Unknown
    }

    /// By `module::name`, `Type::name`, or longer paths that end so.
    fn function_by_path(&self, caller: &Item, call: &Call) -> Target {
        let (head, last) = (&call.path[0], &call.path[call.path.len() - 1]);
        if self.is_of_the_kit(caller, head) {
            let is_cast = call.name == CAST && call.path.len() == 1 && NUMBERS.contains(&head.as_str());
            return self.function_of_the_kit(caller, last, &call.name, is_cast);
        }
        if head == ANY_TYPE || self.is_open(caller, &call.path) {
            return self.method_of_any_type(caller, &call.name);
        }
        if last.starts_with(char::is_uppercase) {
            return self.method_of_type(caller, last, &call.name);
        }
        if !self.is_known(caller, head) {
            return Target::Unknown;
        }
        or_unknown(self.functions_of_module(caller, last, &call.name))
    }

    /// A type of the kit has the methods of the crates' traits that are for it too.
    fn function_of_the_kit(&self, caller: &Item, last: &str, name: &str, is_cast: bool) -> Target {
        let is_for_it = |owner: &str| owner == last || self.open.contains(owner);
        let is_meant = |item: &Item| item.of_trait.is_some() && item.owner.as_deref().is_some_and(is_for_it);
        let methods = self.seen(caller, name, is_meant);
        if is_cast {
            return Target::Items(methods);
        }
        self.items_or_either(methods, |_| false)
    }

    /// Whether a path goes through a name that may stand for any type. What belongs to `Self` may be any too.
    fn is_open(&self, caller: &Item, path: &[String]) -> bool {
        let owner_is_open = caller.owner.as_ref().is_some_and(|owner| self.open.contains(owner));
        let is_own = |name: &String| name == OWN_TYPE && (owner_is_open || path.len() > 1);
        path.iter().any(|name| self.open.contains(name) || is_own(name))
    }

    fn method_of_any_type(&self, caller: &Item, name: &str) -> Target {
        let methods = self.methods(caller, name);
        self.items_or_either(methods, |_| false)
    }

    /// A type without such a method is not one of the program's, or has it from the kit. Those of a trait, and those for
    /// every type, are each type's.
    fn method_of_type(&self, caller: &Item, written: &str, name: &str) -> Target {
        let owner = if written == OWN_TYPE { caller.owner.as_deref() } else { Some(written) };
        let is_its = |other: &str| owner == Some(other) || self.open.contains(other);
        let methods = self.seen(caller, name, |item| item.owner.as_deref().is_some_and(is_its));
        self.items_or_either(methods, |item| item.owner.as_deref() == owner)
    }

    /// The kit has no such method where one of them is meant for sure, or where a trait of the crates has it.
    fn items_or_either(&self, methods: Vec<usize>, is_sure: impl Fn(&Item) -> bool) -> Target {
        let is_declared =
            |item: &Item| item.of_trait.as_ref().is_some_and(|of_trait| self.is_of_the_crates(item, of_trait));
        if methods.iter().map(|place| &self.items[*place]).any(|item| is_sure(item) || is_declared(item)) {
            return Target::Items(methods);
        }
        either(methods)
    }

    /// A module or crate that hands on the name may have it from anywhere.
    fn functions_of_module(&self, caller: &Item, module: &str, name: &str) -> Vec<usize> {
        let all = self.free_functions(caller, name);
        let is_there = |place: &usize| {
            let place = &self.items[*place].place;
            place.module == module || place.crate_name == module
        };
        let there: Vec<usize> = all.iter().copied().filter(is_there).collect();
        if there.is_empty() || self.handed_on.contains(&(module.to_string(), name.to_string())) {
            return all;
        }
        there
    }

    fn free_functions(&self, caller: &Item, name: &str) -> Vec<usize> {
        self.seen(caller, name, |item| item.owner.is_none() && item.what == What::Function)
    }

    fn methods(&self, caller: &Item, name: &str) -> Vec<usize> {
        self.seen(caller, name, |item| item.owner.is_some())
    }

    /// The items of a name that the caller's crate sees, and those of other crates for a trait that it sees: they are
    /// called where a type is a parameter.
    fn seen(&self, caller: &Item, name: &str, is_meant: impl Fn(&Item) -> bool) -> Vec<usize> {
        let scope = &self.scopes[&caller.place.crate_name];
        let is_seen = |item: &Item| {
            let is_of_trait = item.of_trait.as_ref().is_some_and(|of_trait| self.sees_trait(caller, &of_trait.name));
            is_of_trait || scope.contains(&item.place.crate_name)
        };
        let named = self.by_name.get(name).into_iter().flatten().copied();
        let seen = named.filter(|place| is_seen(&self.items[*place]));
        seen.filter(|place| is_meant(&self.items[*place])).collect()
    }

    fn is_of_the_kit(&self, caller: &Item, head: &str) -> bool {
        let is_listed = self.crates.is_of_the_kit(&caller.place.crate_name, head);
        is_listed || NUMBERS.contains(&head) || self.is_from_the_kit(caller, head)
    }

    fn is_from_the_kit(&self, caller: &Item, name: &str) -> bool {
        self.from_the_kit.contains(&(caller.place.file.clone(), name.to_string()))
    }

    /// Whether a path may begin so: with a crate or a module that the caller's crate sees.
    fn is_known(&self, caller: &Item, head: &str) -> bool {
        let scope = &self.scopes[&caller.place.crate_name];
        let is_module = |name: &String| self.modules.contains(&(name.clone(), head.to_string()));
        OWN_HEADS.contains(&head) || scope.contains(head) || scope.iter().any(is_module)
    }
}

fn or_unknown(items: Vec<usize>) -> Target {
    if items.is_empty() {
        return Target::Unknown;
    }
    Target::Items(items)
}

fn either(items: Vec<usize>) -> Target {
    if items.is_empty() {
        return Target::Kit;
    }
    Target::Either(items)
}

/// The places of the items, by each of some names.
fn places_by<'i>(items: &'i [Item], names: impl Fn(&'i Item) -> Vec<&'i String>) -> BTreeMap<String, Vec<usize>> {
    let mut places: BTreeMap<String, Vec<usize>> = BTreeMap::new();
    for (place, item) in items.iter().enumerate() {
        names(item).into_iter().for_each(|name| places.entry(name.clone()).or_default().push(place));
    }
    places
}

/// A crate that is in one of the two alone would be left out.
fn compare(crates: &Crates, sources: &[Source]) -> Result<(), String> {
    let read: BTreeSet<&String> = sources.iter().map(|source| &source.place.crate_name).collect();
    if let Some(name) = crates.names().find(|name| !read.contains(name)) {
        return Err(format!("crates.txt: {name} has no file of code"));
    }
    read.into_iter().find(|name| !crates.has(name)).map_or(Ok(()), |name| Err(format!("crates.txt: {name} is missing")))
}

/// Under such a name a function of the kit would look like one of the crate.
fn refuse_kit_handed_on(crates: &Crates, sources: &[Source]) -> Result<(), String> {
    let is_handed_on = |source: &&Source| {
        let is_kit = |head: &str| crates.is_of_the_kit(&source.place.crate_name, head);
        source.imports.iter().any(|import| import.is_public && is_kit(&import.head))
    };
    let found = sources.iter().find(is_handed_on);
    found.map_or(Ok(()), |source| Err(format!("{}: a `pub use` from the kit is not followed", source.place.file)))
}

fn traits(sources: &[Source]) -> BTreeSet<(String, String)> {
    let of_source = |source: &Source| {
        let names = source.traits.iter();
        names.map(|name| (source.place.crate_name.clone(), name.clone())).collect::<Vec<_>>()
    };
    sources.iter().flat_map(of_source).collect()
}

fn handed_on(sources: &[Source]) -> BTreeSet<(String, String)> {
    let of_source = |source: &Source| {
        let names = source.imports.iter().filter(|import| import.is_public).flat_map(|import| import.names.clone());
        names.map(|name| (source.place.module.clone(), name)).collect::<Vec<_>>()
    };
    sources.iter().flat_map(of_source).collect()
}

fn from_the_kit(crates: &Crates, sources: &[Source]) -> BTreeSet<(String, String)> {
    let of_source = |source: &Source| {
        let is_kit = |head: &str| crates.is_of_the_kit(&source.place.crate_name, head);
        let names = source.imports.iter().filter(|import| is_kit(&import.head)).flat_map(|import| import.names.clone());
        names.map(|name| (source.place.file.clone(), name)).collect::<Vec<_>>()
    };
    sources.iter().flat_map(of_source).collect()
}

#[cfg(test)]
mod tests {
    use super::*;

    const LIST: &str = "slices:\nsector: slices bytes\nother:\nexports: sector\n";

    fn program(files: &[(&str, &str)]) -> Program {
        let empty = ["slices", "sector", "other", "exports"].map(|name| (format!("crates/{name}/src/lib.rt"), ""));
        let written = files.iter().map(|(file, text)| (file.to_string(), *text));
        let texts = empty.into_iter().chain(written).map(|(file, text)| (file, text.to_string()));
        Program::read(&Tree { list: LIST.to_string(), files: texts.collect() }).unwrap()
    }

    /// What the only call of function `f` reaches.
    fn reached(program: &Program) -> Result<Vec<String>, Target> {
        let caller = program.items.iter().find(|item| item.name == "f").unwrap();
        match program.target(caller, &caller.body.calls[0]) {
            Target::Items(items) => Ok(items.into_iter().map(|place| program.items[place].full_title()).collect()),
            other => Err(other),
        }
    }

    fn reached_in(file: &str, text: &str, files: &[(&str, &str)]) -> Result<Vec<String>, Target> {
        reached(&program(&[files, &[(file, text)]].concat()))
    }

    const OTHERS: [(&str, &str); 4] = [
        ("crates/slices/src/lib.rt", "pub fn g() {} impl A { fn g(self) {} } impl B { fn g(self) {} }"),
        ("crates/sector/src/inner.rt", "fn g() {}"),
        ("crates/other/src/lib.rt", "fn g() {} fn h() {} impl A { fn g(self) {} }"),
        ("crates/exports/src/lib.rt", "fn g() {}"),
    ];

    #[test]
    fn a_call_reaches_every_function_of_its_name_in_scope() {
        let plain = reached_in("crates/sector/src/a.rt", "fn f() { g() }", &OTHERS);
        assert_eq!(plain.unwrap(), ["sector::g", "slices::g"]);
        let method = reached_in("crates/sector/src/a.rt", "fn f() { a.g() }", &OTHERS);
        assert_eq!(method.unwrap(), ["slices::A::g", "slices::B::g"]);
        let unknown = reached_in("crates/sector/src/a.rt", "fn f() { h() }", &OTHERS);
        assert_eq!(unknown, Err(Target::Unknown));
    }

    #[test]
    fn a_path_narrows_to_its_type_module_or_crate() {
        let of = |text: &str| reached_in("crates/sector/src/a.rt", text, &OTHERS).unwrap();
        assert_eq!(of("fn f() { A::g() }"), ["slices::A::g"]);
        assert_eq!(of("fn f() { slices::B::g() }"), ["slices::B::g"]);
        assert_eq!(of("impl B { fn f() { Self::g() } }"), ["slices::B::g"]);
        assert_eq!(of("fn f() { slices::g() }"), ["slices::g"]);
        assert_eq!(of("fn f() { super::inner::g() }"), ["sector::g"]);
        assert_eq!(of("fn f() { super::g() }"), ["sector::g", "slices::g"]);
    }

    #[test]
    fn what_is_handed_on_is_not_narrowed() {
        let files = [OTHERS[0], OTHERS[1], ("crates/sector/src/lib.rt", "pub use slices::g;")];
        let of_crate = reached_in("crates/exports/src/a.rt", "fn f() { sector::g() }", &files);
        assert_eq!(of_crate.unwrap(), ["sector::g", "slices::g"]);
    }

    #[test]
    fn the_kit_is_not_looked_for() {
        let of = |text: &str| reached_in("crates/sector/src/a.rt", text, &OTHERS);
        for text in ["bytes::g()", "std::num::g()", "u32::g()", "bytes::scan::A::g()", "a.wrapping_add(b)", "C::g()"] {
            assert_eq!(of(&format!("fn f() {{ {text} }}")), Err(Target::Kit), "{text}");
        }
        assert_eq!(of("use bytes::g; fn f() { g() }"), Err(Target::Kit));
        assert_eq!(of("use bytes::scan; fn f() { scan::g() }"), Err(Target::Kit));
        assert_eq!(of("fn f() { a.len() }"), Ok(Vec::new()));
        assert_eq!(of("fn f() { io::g() }"), Err(Target::Unknown));
        assert_eq!(of("fn f() { panic!() }"), Err(Target::Unknown));
    }

    #[test]
    fn a_type_that_is_not_known_may_be_any() {
        let of = |text: &str| match reached_in("crates/sector/src/a.rt", text, &OTHERS) {
            Err(Target::Either(items)) => items.len(),
            other => panic!("{text}: {other:?}"),
        };
        for text in ["fn f<T>() { T::g() }", "fn f() { <A as B>::g(a) }", "type C = A; fn f() { C::g() }"] {
            assert_eq!(of(text), 2, "{text}");
        }
        assert_eq!(of("impl<T> C for T { fn h() {} } impl A { fn f() { Self::D::g() } }"), 2);
        assert_eq!(reached_in("crates/sector/src/a.rt", "fn f<T>() { T::from(a) }", &OTHERS), Err(Target::Kit));
    }

    #[test]
    fn a_call_with_arguments_of_types_reaches_what_it_names() {
        let of = |text: &str| reached_in("crates/sector/src/a.rt", text, &OTHERS).unwrap();
        assert_eq!(of("fn f() { slices::g::<3>() }"), ["slices::g"]);
        assert_eq!(of("fn f() { a.g::<u8>() }"), ["slices::A::g", "slices::B::g"]);
        assert_eq!(of("fn f() { A::<u8>::g(a) }"), ["slices::A::g"]);
    }

    const TRAIT: (&str, &str) = (
        "crates/slices/src/lib.rt",
        "pub trait Key { fn key(&self) -> u8; fn twice(&self) {} } fn h<K: Key>() { i() }",
    );

    #[test]
    fn functions_of_traits_are_reached_in_every_crate() {
        let imp =
            "struct X; impl slices::Key for X { fn key(&self) -> u8 { 7 / 2 } } impl Key for u16 { fn key(&self) {} }";
        let files = [TRAIT, ("crates/sector/src/x.rt", imp)];
        let low = |text: &str| reached_in("crates/slices/src/a.rt", text, &files).unwrap();
        let all = ["sector::X::key", "sector::u16::key", "slices::Key::key"];
        assert_eq!(low("fn f<K: Key>(k: &K) { k.key() }"), all);
        assert_eq!(low("fn f<K: Key>(k: &K) { K::key(k) }"), all);
        assert_eq!(low("fn f<K: Key>(k: &K) { Key::key(k) }"), all);
        assert_eq!(low("fn f<K: Key>(k: &K) { <K as Key>::key(k) }"), all);
        let high = |text: &str| reached_in("crates/exports/src/a.rt", text, &files);
        assert_eq!(high("fn f(x: X) { X::key(&x) }").unwrap(), ["sector::X::key", "slices::Key::key"]);
        assert_eq!(high("fn f(x: X) { X::twice(&x) }").unwrap(), ["slices::Key::twice"]);
        assert_eq!(high("fn f(x: u16) { u16::key(&x) }").unwrap(), ["sector::u16::key", "slices::Key::key"]);
    }

    /// The titles of all that a function `f` reaches, directly or not.
    fn all_reached(text: &str, files: &[(&str, &str)]) -> Vec<String> {
        let program = program(&[files, &[("crates/sector/src/a.rt", text)]].concat());
        let root = program.items.iter().position(|item| item.name == "f").unwrap();
        let reach = crate::reach::Reach::from(&program, &[root]);
        reach.items().filter(|item| *item != root).map(|item| program.items[item].title()).collect()
    }

    #[test]
    fn what_the_language_calls_is_reached_from_the_type() {
        let types = "struct X { y: Y } struct Y; struct Z; impl Add for Y { type Output = Z; fn add(self) {} }
            impl From<Z> for u16 { fn from(z: Z) -> u16 { 3 } } impl Y { fn plain(self) {} }
            impl slices::Key for X { fn key(&self) {} type Of = Z; }";
        let files = [TRAIT, ("crates/sector/src/x.rt", types)];
        assert_eq!(all_reached("fn f(y: u8) { y + y }", &files), [""; 0]);
        assert_eq!(all_reached("fn f(y: Y) { y + y }", &files), ["Y", "Z", "Y::Output", "Y::add", "u16::from"]);
        let of_x = ["X", "Y", "Z", "Y::Output", "Y::add", "u16::from", "X::Of"];
        assert_eq!(all_reached("fn f(x: &[X]) { x[0].y + x[0].y }", &files), of_x);
        assert_eq!(all_reached("fn f() { g(X { y }) }", &files), of_x);
        assert_eq!(all_reached("fn f(z: u8) { u16::from(z) }", &files), ["Z", "u16::from"]);
    }

    #[test]
    fn what_is_derived_is_no_function_of_the_kit() {
        let of = |text: &str| reached_in("crates/sector/src/a.rt", &format!("{text} fn f() {{ A::default() }}"), &[]);
        assert_eq!(of("#[derive(Default)] struct A;").unwrap(), ["sector::A::default"]);
        assert_eq!(of("#[derive(Clone)] struct A;"), Err(Target::Kit));
        assert_eq!(all_reached("#[derive(Default)] struct A(B); fn f() { A::default() }", &[]), ["A::default", "A"]);
    }

    #[test]
    fn values_that_are_called() {
        let of = |text: &str| reached_in("crates/sector/src/a.rt", text, &OTHERS);
        assert_eq!(of("fn f(h: impl Fn(u8)) { h(1) }"), Ok(Vec::new()));
        assert_eq!(of("fn f() { h(1); let h = |x| x; }"), Ok(Vec::new()));
        assert_eq!(of("fn f(h: u8) { h(1) }"), Err(Target::Unknown));
        assert_eq!(of("fn f(g: impl Fn(u8)) { g(1) }").unwrap(), ["sector::g", "slices::g"]);
        assert_eq!(of("fn f() { matches!(a, b) }"), Ok(Vec::new()));
        assert_eq!(of("use bytes::matches; fn f() { matches!(a, b) }"), Err(Target::Unknown));
    }

    #[test]
    fn numbers_are_made_of_lesser_ones() {
        let of = |text: &str| reached_in("crates/sector/src/a.rt", text, &OTHERS);
        assert_eq!(of("fn f() { u16::from(a) }"), Ok(Vec::new()));
        assert_eq!(
            of("impl From<A> for u16 { fn from(a: A) {} } fn f() { u16::from(a) }").unwrap(),
            ["sector::u16::from"]
        );
        assert_eq!(of("fn f() { u8::try_from(a) }"), Err(Target::Kit));
    }

    #[test]
    fn functions_of_the_kit_that_are_handed_on() {
        let of = |text: &str| {
            let program = program(&[("crates/sector/src/a.rt", text)]);
            let item = program.items.iter().find(|item| item.name == "f").unwrap();
            let kit = program.calls(item).filter(|call| program.target(item, call) == Target::Kit);
            kit.map(Call::told).collect::<Vec<_>>().join(" ")
        };
        assert_eq!(of("use bytes::g; fn f() { a.map(g).fold(1, u8::rem) }"), ".map .fold u8::rem g");
        assert_eq!(of("use bytes::scan; fn f() { h(scan, scan::SIZE) }"), "scan");
    }

    #[test]
    fn constants_are_reached_where_they_are_named() {
        let files = [("crates/slices/src/lib.rt", "pub const HALF: u8 = 7 / 2;")];
        let program = program(&[files[0], ("crates/sector/src/a.rt", "fn f() { slices::HALF }")]);
        let caller = program.items.iter().find(|item| item.name == "f").unwrap();
        let reached: Vec<_> = program.reached_by(caller).into_iter().map(|place| &program.items[place].name).collect();
        assert_eq!(reached, ["HALF"]);
    }

    #[test]
    fn functions_are_reached_where_they_are_handed_on() {
        let halves = "pub fn half(a: u8) -> u8 { a / 2 } impl A { fn third(self) -> u8 { 3 } fn g(self) {} }";
        let files = [("crates/slices/src/lib.rt", halves)];
        let program = program(&[files[0], ("crates/sector/src/a.rt", "fn f() { g.map(half).map(A::third) }")]);
        let caller = program.items.iter().find(|item| item.name == "f").unwrap();
        let reached: Vec<_> = program.reached_by(caller).into_iter().map(|place| &program.items[place].name).collect();
        assert_eq!(reached, ["half", "third"]);
    }

    #[test]
    fn crates_that_are_listed_or_read_alone() {
        let tree =
            |list: &str, file: &str| Tree { list: list.to_string(), files: [(file.to_string(), String::new())].into() };
        let trouble = |tree: Tree| Program::read(&tree).err().unwrap();
        assert!(trouble(tree("a:\nb:\n", "crates/a/src/lib.rt")).contains("b has no file"));
        assert!(trouble(tree("a:\n", "crates/b/src/lib.rt")).contains("a has no file"));
        assert!(trouble(tree("", "crates/b/src/lib.rt")).contains("b is missing"));
    }

    #[test]
    fn a_name_of_the_kit_that_is_handed_on() {
        let (list, file) = ("a: bytes\n".to_string(), "crates/a/src/lib.rt".to_string());
        let tree = Tree { list, files: [(file, "pub use bytes::copy;".to_string())].into() };
        assert!(Program::read(&tree).err().unwrap().starts_with("crates/a/src/lib.rt: a `pub use` from the kit"));
    }
}
