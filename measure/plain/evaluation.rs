//! Requests one after the other, over the objects of all stores.
use crate::heap::{Attempt, Heap, Limit, Object};
use crate::lines;
use crate::resolved::*;
use crate::values::{Oid, Value, applied, compared, operated};

const FUEL: u32 = 1_000_000;
const DEPTH: u32 = 64;

/// How a request ends that doesn't come to the end of its method.
#[derive(Clone, Copy, Debug, PartialEq, Eq)]
pub enum End {
    Failed,
    Stopped(Limit),
}

impl From<Limit> for End {
    fn from(limit: Limit) -> End {
        End::Stopped(limit)
    }
}

pub type Outcome = Result<Option<Value>, End>;

struct Machine<'r, 'a> {
    r: &'r Resolved<'a>,
    heap: Heap,
    fuel: u32,
    depth: u32,
    /// The locals of all methods that are open; those of the innermost begin at `base`.
    locals: Vec<Value>,
    base: usize,
}

/// The text of an evaluation.
pub fn evaluate(r: &Resolved<'_>) -> Vec<u8> {
    let mut machine = Machine {
        r,
        heap: Heap::default(),
        fuel: 0,
        depth: 0,
        locals: Vec::new(),
        base: 0,
    };
    for root in &r.roots {
        machine.heap.objects.insert(
            root.oid,
            Object {
                class: root.oid.class,
                fields: root.values.clone(),
            },
        );
    }
    let mut sessions: Vec<&Session> = r.sessions.iter().collect();
    sessions.sort_by_key(|session| session.worker.number);
    let mut text = Vec::new();
    for request in sessions.iter().flat_map(|session| &session.requests) {
        let outcome = machine.request(request);
        lines::put_outcome(&mut text, r, request, &outcome);
    }
    for (oid, object) in &machine.heap.objects {
        lines::put_object(&mut text, r, *oid, object);
    }
    text.extend_from_slice(b"end\n");
    text
}

fn led(value: Value) -> Result<Oid, End> {
    match value {
        Value::Ref(oid) => Ok(oid),
        Value::Int(_) | Value::Null => Err(End::Failed),
    }
}

impl<'r> Machine<'r, '_> {
    fn request(&mut self, request: &Request) -> Outcome {
        self.heap.begin(Attempt {
            worker: request.worker,
            boot: 1,
            number: request.number,
        });
        self.fuel = FUEL;
        self.depth = 0;
        self.locals.clear();
        self.locals.extend_from_slice(&request.arguments);
        let outcome = self.enter(&self.r.methods[usize::from(request.method)], 0);
        if outcome.is_err() {
            self.heap.undo(0);
        }
        outcome
    }

    /// Runs a method whose arguments are the locals from `base` on.
    fn enter(&mut self, method: &'r Method<'_>, base: usize) -> Outcome {
        if self.depth == DEPTH {
            return Err(End::Stopped(Limit::Depth));
        }
        self.depth += 1;
        let callers = std::mem::replace(&mut self.base, base);
        let defaults = method.locals[method.parameters..]
            .iter()
            .map(|local| match local.sort {
                Sort::Int => Value::Int(0),
                Sort::Class(_) => Value::Null,
            });
        self.locals.extend(defaults);
        let outcome = self.body(method);
        self.locals.truncate(base);
        self.base = callers;
        self.depth -= 1;
        outcome
    }

    fn body(&mut self, method: &'r Method<'_>) -> Outcome {
        self.block(&method.body)?;
        match &method.result {
            Some(result) => Ok(Some(self.value(&result.value)?)),
            None => Ok(None),
        }
    }

    fn local(&self, number: u16) -> Value {
        self.locals[self.base + usize::from(number)]
    }

    fn charge(&mut self) -> Result<(), End> {
        match self.fuel {
            0 => Err(End::Stopped(Limit::Fuel)),
            _ => {
                self.fuel -= 1;
                Ok(())
            }
        }
    }

    fn value(&mut self, e: &Expression) -> Result<Value, End> {
        Ok(match &e.form {
            Form::Number(n) => Value::Int(*n),
            Form::Null => Value::Null,
            Form::Local(x) => self.local(x.number),
            Form::Read {
                object,
                field,
                site,
            } => {
                let oid = led(self.local(object.number))?;
                self.heap.read(*site, oid, *field)?
            }
            Form::Unary { operator, operand } => applied(*operator, self.value(operand)?),
            Form::Chain { first, others } => {
                let mut value = self.value(first)?;
                for other in others {
                    let operand = self.value(&other.operand)?;
                    value = operated(other.operator, value, operand).ok_or(End::Failed)?;
                }
                value
            }
            Form::Compared {
                left,
                comparison,
                right,
            } => {
                let left = self.value(left)?;
                compared(*comparison, left, self.value(right)?)
            }
        })
    }

    fn call(&mut self, method: Use, arguments: &'r [Expression]) -> Outcome {
        let base = self.locals.len();
        for argument in arguments {
            let value = self.value(argument)?;
            self.locals.push(value);
        }
        self.enter(&self.r.methods[usize::from(method.number)], base)
    }

    fn right(&mut self, right: &'r Right) -> Result<Value, End> {
        match right {
            Right::Plain(e) => self.value(e),
            Right::Call { method, arguments } => {
                Ok(self.call(*method, arguments)?.unwrap_or(Value::Null))
            }
            Right::New {
                class,
                store,
                arguments,
                site,
                ..
            } => {
                let fields = arguments
                    .iter()
                    .map(|e| self.value(e))
                    .collect::<Result<Vec<_>, _>>()?;
                Ok(Value::Ref(self.heap.make(
                    store.number,
                    class.number,
                    *site,
                    fields,
                )?))
            }
            Right::Downgrade { value, .. } => self.value(value),
        }
    }

    fn block(&mut self, block: &'r [Statement]) -> Result<(), End> {
        block
            .iter()
            .try_for_each(|statement| self.statement(statement))
    }

    fn statement(&mut self, statement: &'r Statement) -> Result<(), End> {
        self.charge()?;
        match statement {
            Statement::Assign { local, right, .. } => {
                let value = self.right(right)?;
                let at = self.base + usize::from(*local);
                self.locals[at] = value;
                Ok(())
            }
            Statement::Write {
                object,
                field,
                value,
                site,
            } => {
                let value = self.value(value)?;
                let oid = led(self.local(object.number))?;
                Ok(self.heap.write(*site, oid, *field, value)?)
            }
            Statement::Call { method, arguments } => self.call(*method, arguments).map(|_| ()),
            Statement::If {
                condition,
                block,
                otherwise,
            } => {
                let chosen = if self.value(condition)?.holds() {
                    block
                } else {
                    otherwise
                };
                self.block(chosen)
            }
            Statement::While { condition, block } => {
                while self.value(condition)?.holds() {
                    self.block(block)?;
                    self.charge()?;
                }
                Ok(())
            }
            Statement::Atomic {
                block, otherwise, ..
            } => self.atomically(block, otherwise),
            Statement::Fail { .. } => Err(End::Failed),
        }
    }

    /// Where the first block fails, locals and objects go back, and the other runs.
    fn atomically(
        &mut self,
        block: &'r [Statement],
        otherwise: &'r [Statement],
    ) -> Result<(), End> {
        let locals = self.locals[self.base..].to_vec();
        let mark = self.heap.mark();
        match self.block(block) {
            Err(End::Failed) => {
                self.heap.undo(mark);
                self.locals.truncate(self.base);
                self.locals.extend_from_slice(&locals);
                self.block(otherwise)
            }
            other => other,
        }
    }
}
