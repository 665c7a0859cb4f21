//! The names of a bundle, by what they stand for, and the locals that are known at a place.
use crate::refusal::{NameRule, Refusal};
use crate::tree::{Name, Start};
use std::collections::HashMap;

/// The first fault, by its place and then by its rule.
#[derive(Debug, Default)]
pub struct Faults {
    first: Option<(u32, NameRule)>,
}

impl Faults {
    pub fn add(&mut self, rule: NameRule, at: u32) {
        let fault = (at, rule);
        if self.first.is_none_or(|first| fault < first) {
            self.first = Some(fault);
        }
    }

    pub fn outcome(&self) -> Result<(), Refusal> {
        match self.first {
            Some((at, rule)) => Err(Refusal::Name { rule, at }),
            None => Ok(()),
        }
    }
}

/// What names of one space stand for: the number of the first that has the name.
pub type Space<'s> = HashMap<&'s str, usize>;

/// The names of a space. One that is there already is a fault.
pub fn space<'s, 'a: 's>(
    names: impl ExactSizeIterator<Item = &'s Name<'a>>,
    faults: &mut Faults,
) -> Space<'s> {
    let mut space = Space::with_capacity(names.len());
    for (number, name) in names.enumerate() {
        if space.contains_key(&*name.text) {
            faults.add(NameRule::Doubled, name.at);
        } else {
            space.insert(&*name.text, number);
        }
    }
    space
}

#[derive(Debug)]
pub struct Spaces<'s> {
    pub principals: Space<'s>,
    pub labels: Space<'s>,
    pub classes: Space<'s>,
    pub methods: Space<'s>,
    pub roots: Space<'s>,
}

impl<'s> Spaces<'s> {
    pub fn of(start: &'s Start<'_>, faults: &mut Faults) -> Spaces<'s> {
        let program = &start.program;
        Spaces {
            principals: space(program.nodes.iter().map(|x| &x.name), faults),
            labels: space(program.labels.iter().map(|x| &x.name), faults),
            classes: space(program.classes.iter().map(|x| &x.name), faults),
            methods: space(program.methods.iter().map(|x| &x.name), faults),
            roots: space(start.roots.iter().map(|x| &x.name), faults),
        }
    }
}

/// The locals of a method: each name with the number of the last local of it, and whether that is known here.
#[derive(Debug, Default)]
pub struct Scope<'s> {
    locals: HashMap<&'s str, (usize, bool)>,
    known: Vec<&'s str>,
    count: usize,
}

impl<'s> Scope<'s> {
    pub fn declare(&mut self, name: &'s Name<'_>, faults: &mut Faults) -> usize {
        let number = self.count;
        self.count += 1;
        match self.locals.get_mut(&*name.text) {
            None => {
                self.locals.insert(&*name.text, (number, true));
                self.known.push(&*name.text);
            }
            Some(local) => {
                faults.add(NameRule::Doubled, name.at);
                if !local.1 {
                    *local = (number, true);
                    self.known.push(&*name.text);
                }
            }
        }
        number
    }

    pub fn number(&self, name: &Name<'_>) -> Option<usize> {
        match self.locals.get(&*name.text) {
            Some((number, true)) => Some(*number),
            _ => None,
        }
    }

    /// A block begins: what `leave` is to be given.
    pub fn enter(&self) -> usize {
        self.known.len()
    }

    /// What was declared in a block is known no more.
    pub fn leave(&mut self, known: usize) {
        for name in self.known.drain(known..) {
            if let Some(local) = self.locals.get_mut(name) {
                local.1 = false;
            }
        }
    }
}
