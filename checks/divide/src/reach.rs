//! What is reached from some functions, and by which calls.

use crate::program::Program;
use std::collections::{BTreeMap, VecDeque};

pub struct Reach {
    /// Each item that is reached, with the one that reaches it first; none for a root.
    callers: BTreeMap<usize, Option<usize>>,
}

impl Reach {
    /// The nearest first, so that a chain of calls is as short as can be.
    pub fn from(program: &Program, roots: &[usize]) -> Reach {
        let mut callers: BTreeMap<usize, Option<usize>> = roots.iter().map(|root| (*root, None)).collect();
        let mut waiting: VecDeque<usize> = roots.iter().copied().collect();
        while let Some(caller) = waiting.pop_front() {
            let mut reached = program.reached_by(&program.items[caller]);
            reached.retain(|item| !callers.contains_key(item));
            callers.extend(reached.iter().map(|item| (*item, Some(caller))));
            waiting.extend(reached);
        }
        Reach { callers }
    }

    pub fn items(&self) -> impl Iterator<Item = usize> + '_ {
        self.callers.keys().copied()
    }

    pub fn has(&self, item: usize) -> bool {
        self.callers.contains_key(&item)
    }

    /// The calls from a root to the item, as `a -> b -> c`. By the names alone: a link may be to a function that only
    /// has the name of the one that is called.
    pub fn chain(&self, program: &Program, item: usize) -> String {
        let caller = |item: &usize| self.callers.get(item).copied().flatten();
        let mut titles: Vec<String> =
            std::iter::successors(Some(item), caller).map(|item| program.items[item].title()).collect();
        titles.reverse();
        titles.join(" -> ")
    }
}
