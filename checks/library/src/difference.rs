//! Where library and model part, and how it is told.

use crate::call::Answer;
use crate::record::Record;
use std::fmt::{self, Debug, Display};

#[derive(Debug)]
pub struct Difference {
    pub call_number: u64,
    pub call: String,
    /// As it was before the call.
    pub record: Record,
    /// By the model and by the library.
    pub answers: Option<(Answer, Answer)>,
    pub part: Part,
}

impl Display for Difference {
    fn fmt(&self, f: &mut fmt::Formatter) -> fmt::Result {
        writeln!(f, "difference at call {}: {}", self.call_number, self.call)?;
        writeln!(f, "  record before:   {:?}", self.record)?;
        if let Some((model, library)) = &self.answers {
            writeln!(f, "  model answers:   {model:?}")?;
            writeln!(f, "  library answers: {library:?}")?;
        }
        write!(f, "  differs: {}: model {}, library {}", self.part.what, self.part.model, self.part.library)
    }
}

/// What differs: its name, and how each side has it.
#[derive(Debug)]
pub struct Part {
    pub what: String,
    pub model: String,
    pub library: String,
}

pub fn same<V: PartialEq + Debug>(what: &str, model: V, library: V) -> Result<(), Part> {
    if model == library {
        return Ok(());
    }
    Err(Part { what: what.to_string(), model: format!("{model:?}"), library: format!("{library:?}") })
}

/// The first place at which two rows of the same length differ.
pub fn same_rows<V: PartialEq + Debug>(what: &str, model: &[V], library: &[V]) -> Result<(), Part> {
    match model.iter().zip(library).position(|(one, other)| one != other) {
        Some(place) => same(&format!("{what} {place}"), &model[place], &library[place]),
        None => Ok(()),
    }
}
