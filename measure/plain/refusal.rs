//! Why a text is refused.
use std::fmt::{self, Display, Formatter};

/// A rule of names and types. At one place the first of these is told.
#[derive(Clone, Copy, Debug, PartialEq, Eq, PartialOrd, Ord)]
pub enum NameRule {
    Unknown,
    Doubled,
    Node,
    Arity,
    Type,
}

/// A rule of labels. At one place the first of these is told.
#[derive(Clone, Copy, Debug, PartialEq, Eq, PartialOrd, Ord)]
pub enum LabelRule {
    Placement,
    Begin,
    Atomic,
    Write,
    Access,
    Fail,
    Declassify,
    Endorse,
    Authority,
}

#[derive(Debug)]
pub enum Refusal {
    Syntax {
        at: u32,
    },
    Limit(&'static str),
    Name {
        rule: NameRule,
        at: u32,
    },
    Label {
        rule: LabelRule,
        at: u32,
        from: String,
        to: String,
    },
}

impl Refusal {
    pub fn status(&self) -> u8 {
        match self {
            Refusal::Syntax { .. } => 5,
            Refusal::Name { .. } => 6,
            Refusal::Label { .. } => 7,
            Refusal::Limit(_) => 8,
        }
    }
}

impl Display for Refusal {
    fn fmt(&self, f: &mut Formatter<'_>) -> fmt::Result {
        match self {
            Refusal::Syntax { at } => writeln!(f, "syntax at {at}"),
            Refusal::Limit(what) => writeln!(f, "limit {what}"),
            Refusal::Name { rule, at } => {
                writeln!(f, "name {} at {at}", format!("{rule:?}").to_lowercase())
            }
            Refusal::Label { rule, at, from, to } => {
                writeln!(
                    f,
                    "label {} at {at} from {from} to {to}",
                    format!("{rule:?}").to_lowercase()
                )
            }
        }
    }
}
