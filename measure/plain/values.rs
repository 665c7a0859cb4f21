//! Values, and what is computed from them alone.
use crate::tree::{Comparison, Operator, UnaryOperator};

/// The name of an object. The order of the fields is that of names.
#[derive(Clone, Copy, Debug, PartialEq, Eq, PartialOrd, Ord, Hash)]
pub struct Oid {
    pub store: u16,
    pub class: u16,
    pub worker: u16,
    pub boot: u32,
    pub number: u32,
    pub site: u16,
    pub index: u16,
}

impl Oid {
    pub fn of_root(store: u16, class: u16, number: u32) -> Oid {
        Oid {
            store,
            class,
            worker: u16::MAX,
            boot: 0,
            number,
            site: u16::MAX,
            index: 0,
        }
    }

    /// The number of the root that has this name.
    pub fn root(self) -> Option<u32> {
        (self.worker == u16::MAX).then_some(self.number)
    }

    pub fn hex(self) -> String {
        let Oid {
            store,
            class,
            worker,
            boot,
            number,
            site,
            index,
        } = self;
        format!("{store:04x}{class:04x}{worker:04x}{boot:08x}{number:08x}{site:04x}{index:04x}")
    }
}

#[derive(Clone, Copy, Debug, PartialEq, Eq)]
pub enum Value {
    Int(i32),
    Null,
    Ref(Oid),
}

impl Value {
    fn number(self) -> i32 {
        match self {
            Value::Int(n) => n,
            Value::Null | Value::Ref(_) => 0,
        }
    }

    pub fn holds(self) -> bool {
        self.number() != 0
    }
}

pub fn applied(operator: UnaryOperator, value: Value) -> Value {
    match operator {
        UnaryOperator::Negative => Value::Int(value.number().wrapping_neg()),
        UnaryOperator::Not => Value::Int(i32::from(!value.holds())),
    }
}

/// None where the divisor is 0.
pub fn operated(operator: Operator, left: Value, right: Value) -> Option<Value> {
    let (a, b) = (left.number(), right.number());
    let number = match operator {
        Operator::Or => a | b,
        Operator::And => a & b,
        Operator::Add => a.wrapping_add(b),
        Operator::Subtract => a.wrapping_sub(b),
        Operator::Multiply => a.wrapping_mul(b),
        Operator::Divide if b == 0 => return None,
        Operator::Divide => a.wrapping_div(b),
    };
    Some(Value::Int(number))
}

pub fn compared(comparison: Comparison, left: Value, right: Value) -> Value {
    let holds = match comparison {
        Comparison::Equal => left == right,
        Comparison::NotEqual => left != right,
        Comparison::Less => left.number() < right.number(),
        Comparison::LessEqual => left.number() <= right.number(),
        Comparison::Greater => left.number() > right.number(),
        Comparison::GreaterEqual => left.number() >= right.number(),
    };
    Value::Int(i32::from(holds))
}
