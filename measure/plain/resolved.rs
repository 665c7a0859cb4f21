//! A bundle with numbers for names.
use crate::tree::{Comparison, Downgrade, Name, Operator, Role, UnaryOperator};
use crate::values::{Oid, Value};

/// The number of what a name stands for, and the name's place.
#[derive(Clone, Copy, Debug)]
pub struct Use {
    pub number: u16,
    pub at: u32,
}

#[derive(Debug)]
pub struct Principal<'a> {
    pub role: Role,
    pub name: Name<'a>,
    /// The number among workers and stores.
    pub node: Option<u16>,
}

#[derive(Debug)]
pub struct Policy {
    pub owner: u16,
    pub others: Vec<u16>,
}

#[derive(Debug)]
pub struct Label<'a> {
    pub name: Name<'a>,
    pub readers: Vec<Policy>,
    pub writers: Vec<Policy>,
}

#[derive(Clone, Copy, Debug)]
pub enum Sort {
    Int,
    Class(Use),
}

#[derive(Debug)]
pub struct Field<'a> {
    pub sort: Sort,
    pub name: Name<'a>,
}

#[derive(Debug)]
pub struct Class<'a> {
    pub name: Name<'a>,
    pub label: Use,
    pub access: Use,
    pub fields: Vec<Field<'a>>,
}

#[derive(Debug)]
pub struct Expression {
    pub form: Form,
    pub at: u32,
}

#[derive(Debug)]
pub enum Form {
    Number(i32),
    Null,
    Local(Use),
    Read {
        object: Use,
        field: u16,
        site: u16,
    },
    Unary {
        operator: UnaryOperator,
        operand: Box<Expression>,
    },
    Chain {
        first: Box<Expression>,
        others: Vec<Operand>,
    },
    Compared {
        left: Box<Expression>,
        comparison: Comparison,
        right: Box<Expression>,
    },
}

#[derive(Debug)]
pub struct Operand {
    pub operator: Operator,
    pub at: u32,
    pub operand: Expression,
}

#[derive(Debug)]
pub enum Right {
    Plain(Expression),
    Call {
        method: Use,
        arguments: Vec<Expression>,
    },
    New {
        class: Use,
        store: Use,
        arguments: Vec<Expression>,
        site: u16,
        at: u32,
    },
    Downgrade {
        downgrade: Downgrade,
        value: Expression,
        from: Use,
        to: Use,
        site: u16,
        at: u32,
    },
}

#[derive(Debug)]
pub enum Statement {
    Assign {
        local: u16,
        right: Right,
        at: u32,
    },
    Write {
        object: Use,
        field: u16,
        value: Expression,
        site: u16,
    },
    Call {
        method: Use,
        arguments: Vec<Expression>,
    },
    If {
        condition: Expression,
        block: Vec<Statement>,
        otherwise: Vec<Statement>,
    },
    While {
        condition: Expression,
        block: Vec<Statement>,
    },
    Atomic {
        label: Use,
        block: Vec<Statement>,
        otherwise: Vec<Statement>,
        at: u32,
    },
    Fail {
        at: u32,
    },
}

#[derive(Debug)]
pub struct Local<'a> {
    pub sort: Sort,
    pub name: Name<'a>,
    pub label: Use,
}

#[derive(Clone, Copy, Debug)]
pub struct Returns {
    pub sort: Sort,
    pub label: Use,
}

#[derive(Debug)]
pub struct Return {
    pub value: Expression,
    pub at: u32,
}

#[derive(Debug)]
pub struct Method<'a> {
    pub name: Name<'a>,
    pub parameters: usize,
    pub locals: Vec<Local<'a>>,
    pub returns: Option<Returns>,
    pub begin: Use,
    pub fails: bool,
    pub authority: Vec<Use>,
    pub body: Vec<Statement>,
    pub result: Option<Return>,
}

#[derive(Debug)]
pub struct Root<'a> {
    pub name: Name<'a>,
    pub oid: Oid,
    pub values: Vec<Value>,
}

#[derive(Debug)]
pub struct Request {
    pub worker: u16,
    pub number: u32,
    pub method: u16,
    pub arguments: Vec<Value>,
    pub at: u32,
}

#[derive(Debug)]
pub struct Session {
    pub worker: Use,
    pub requests: Vec<Request>,
}

#[derive(Debug)]
pub struct Post {
    pub sender: u16,
    pub receiver: u16,
    pub bytes: Vec<u8>,
}

#[derive(Debug)]
pub struct Crash {
    pub node: u16,
    pub after: u32,
    pub keep: Option<u32>,
}

#[derive(Clone, Copy, Debug)]
pub enum Step {
    Begin(u16),
    Resume(u16),
    Deliver { sender: u16, receiver: u16 },
    Idle { worker: u16, node: u16 },
    Recover(u16),
}

#[derive(Clone, Copy, Debug)]
pub enum Event {
    Step(Step),
    CrashIn { keep: u32, step: Step },
    Post(u16),
    Crash(u16),
}

#[derive(Debug)]
pub struct Resolved<'a> {
    pub nodes: Vec<Principal<'a>>,
    pub pairs: Vec<(u16, u16)>,
    pub labels: Vec<Label<'a>>,
    pub classes: Vec<Class<'a>>,
    pub methods: Vec<Method<'a>>,
    pub roots: Vec<Root<'a>>,
    pub sessions: Vec<Session>,
    pub posts: Vec<Post>,
    pub crashes: Vec<Crash>,
    pub cache: u32,
    pub schedule: Vec<Event>,
}
