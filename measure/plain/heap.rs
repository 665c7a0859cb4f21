//! The objects of a run, with what the request at hand touched, wrote and made, and how to go back.
use crate::values::{Oid, Value};
use std::collections::{BTreeMap, HashMap, HashSet};

const MOST_TOUCHED: usize = 1024;
const MOST_CHANGED: usize = 256;

#[derive(Clone, Copy, Debug, PartialEq, Eq)]
pub enum Limit {
    Fuel,
    Depth,
    Reads,
    Writes,
}

#[derive(Debug)]
pub struct Object {
    pub class: u16,
    pub fields: Vec<Value>,
}

/// A change that can be undone.
#[derive(Debug)]
enum Change {
    Written {
        oid: Oid,
        field: u16,
        before: Value,
        first: bool,
    },
    Made(Oid),
}

/// The attempt that a request is.
#[derive(Clone, Copy, Debug, Default)]
pub struct Attempt {
    pub worker: u16,
    pub boot: u32,
    pub number: u32,
}

#[derive(Debug, Default)]
pub struct Heap {
    pub objects: BTreeMap<Oid, Object>,
    attempt: Attempt,
    /// Each pair of a site and an object once, in order.
    touches: Vec<(u16, Oid)>,
    noted: HashSet<(u16, Oid)>,
    touched: HashSet<Oid>,
    written: HashSet<Oid>,
    /// How many objects each site made.
    made: HashMap<u16, u16>,
    made_count: usize,
    changes: Vec<Change>,
}

impl Heap {
    pub fn begin(&mut self, attempt: Attempt) {
        self.attempt = attempt;
        self.touches.clear();
        self.noted.clear();
        self.touched.clear();
        self.written.clear();
        self.made.clear();
        self.made_count = 0;
        self.changes.clear();
    }

    pub fn mark(&self) -> usize {
        self.changes.len()
    }

    /// Undoes what was changed since a mark. Touches stay.
    pub fn undo(&mut self, mark: usize) {
        for change in self.changes.drain(mark..).rev() {
            match change {
                Change::Made(oid) => {
                    self.objects.remove(&oid);
                    self.made_count -= 1;
                    self.made.entry(oid.site).and_modify(|count| *count -= 1);
                }
                Change::Written {
                    oid,
                    field,
                    before,
                    first,
                } => {
                    if let Some(object) = self.objects.get_mut(&oid) {
                        object.fields[usize::from(field)] = before;
                    }
                    if first {
                        self.written.remove(&oid);
                    }
                }
            }
        }
    }

    fn is_own(&self, oid: Oid) -> bool {
        (oid.worker, oid.boot, oid.number)
            == (self.attempt.worker, self.attempt.boot, self.attempt.number)
    }

    /// Notes that an object is touched at a site, if it was there before.
    fn touch(&mut self, site: u16, oid: Oid) -> Result<(), Limit> {
        if self.is_own(oid) {
            return Ok(());
        }
        if self.touched.insert(oid) && self.touched.len() > MOST_TOUCHED {
            self.touched.remove(&oid);
            return Err(Limit::Reads);
        }
        if self.noted.insert((site, oid)) {
            self.touches.push((site, oid));
        }
        Ok(())
    }

    /// How many objects were written or made.
    fn changed(&self) -> usize {
        self.written.len() + self.made_count
    }

    pub fn read(&mut self, site: u16, oid: Oid, field: u16) -> Result<Value, Limit> {
        self.touch(site, oid)?;
        Ok(self.objects[&oid].fields[usize::from(field)])
    }

    pub fn write(&mut self, site: u16, oid: Oid, field: u16, value: Value) -> Result<(), Limit> {
        self.touch(site, oid)?;
        let first = !self.is_own(oid) && self.written.insert(oid);
        if first && self.changed() > MOST_CHANGED {
            self.written.remove(&oid);
            return Err(Limit::Writes);
        }
        if let Some(object) = self.objects.get_mut(&oid) {
            let before = std::mem::replace(&mut object.fields[usize::from(field)], value);
            self.changes.push(Change::Written {
                oid,
                field,
                before,
                first,
            });
        }
        Ok(())
    }

    pub fn make(
        &mut self,
        store: u16,
        class: u16,
        site: u16,
        fields: Vec<Value>,
    ) -> Result<Oid, Limit> {
        if self.changed() >= MOST_CHANGED {
            return Err(Limit::Writes);
        }
        self.made_count += 1;
        let index = self.made.entry(site).or_insert(0);
        let Attempt {
            worker,
            boot,
            number,
        } = self.attempt;
        let oid = Oid {
            store,
            class,
            worker,
            boot,
            number,
            site,
            index: *index,
        };
        *index += 1;
        self.objects.insert(oid, Object { class, fields });
        self.changes.push(Change::Made(oid));
        Ok(oid)
    }
}
