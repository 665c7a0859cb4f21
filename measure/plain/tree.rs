//! A bundle as it is written.

#[cfg(not(owned))]
pub type Text<'a> = &'a str;
/// (built with `--cfg owned`, each name has a text of its own)
#[cfg(owned)]
pub type Text<'a> = std::borrow::Cow<'a, str>;

#[cfg(not(owned))]
pub fn text(letters: &str) -> Text<'_> {
    letters
}
#[cfg(owned)]
pub fn text(letters: &str) -> Text<'_> {
    Text::Owned(letters.to_string())
}

/// A name, and the place of its first byte.
#[derive(Clone, Debug)]
pub struct Name<'a> {
    pub text: Text<'a>,
    pub at: u32,
}

#[derive(Clone, Copy, Debug, PartialEq, Eq)]
pub enum Role {
    Principal,
    Worker { hostile: bool },
    Store { hostile: bool },
}

impl Role {
    pub fn is_node(self) -> bool {
        self != Role::Principal
    }

    pub fn is_worker(self) -> bool {
        matches!(self, Role::Worker { .. })
    }

    pub fn is_store(self) -> bool {
        matches!(self, Role::Store { .. })
    }

    pub fn is_hostile(self) -> bool {
        matches!(
            self,
            Role::Worker { hostile: true } | Role::Store { hostile: true }
        )
    }

    pub fn is_honest(self) -> bool {
        self.is_node() && !self.is_hostile()
    }

    pub fn is_honest_worker(self) -> bool {
        self == Role::Worker { hostile: false }
    }
}

#[derive(Debug)]
pub struct Node<'a> {
    pub role: Role,
    pub name: Name<'a>,
}

#[derive(Debug)]
pub struct Delegation<'a> {
    pub actor: Name<'a>,
    pub principal: Name<'a>,
}

#[derive(Clone, Copy, Debug, PartialEq, Eq)]
pub enum Aspect {
    Confidentiality,
    Integrity,
}

#[derive(Debug)]
pub struct PolicyText<'a> {
    pub owner: Name<'a>,
    pub aspect: Aspect,
    pub others: Vec<Name<'a>>,
}

#[derive(Debug)]
pub struct LabelText<'a> {
    pub name: Name<'a>,
    pub policies: Vec<PolicyText<'a>>,
}

#[derive(Debug)]
pub enum Sort<'a> {
    Int,
    Class(Name<'a>),
}

#[derive(Debug)]
pub struct Field<'a> {
    pub sort: Sort<'a>,
    pub name: Name<'a>,
}

#[derive(Debug)]
pub struct Class<'a> {
    pub name: Name<'a>,
    pub label: Name<'a>,
    pub access: Name<'a>,
    pub fields: Vec<Field<'a>>,
}

#[derive(Clone, Copy, Debug, PartialEq, Eq)]
pub enum Operator {
    Or,
    And,
    Add,
    Subtract,
    Multiply,
    Divide,
}

#[derive(Clone, Copy, Debug, PartialEq, Eq)]
pub enum UnaryOperator {
    Negative,
    Not,
}

#[derive(Clone, Copy, Debug, PartialEq, Eq)]
pub enum Comparison {
    Equal,
    NotEqual,
    Less,
    LessEqual,
    Greater,
    GreaterEqual,
}

/// An expression, and the place of its first byte, brackets included.
#[derive(Debug)]
pub struct Expression<'a> {
    pub form: Form<'a>,
    pub at: u32,
}

#[derive(Debug)]
pub enum Form<'a> {
    Number(i32),
    Null,
    Local(Name<'a>),
    Read {
        object: Name<'a>,
        field: Name<'a>,
    },
    Unary {
        operator: UnaryOperator,
        operand: Box<Expression<'a>>,
    },
    Chain {
        first: Box<Expression<'a>>,
        others: Vec<Operand<'a>>,
    },
    Compared {
        left: Box<Expression<'a>>,
        comparison: Comparison,
        right: Box<Expression<'a>>,
    },
}

#[derive(Debug)]
pub struct Operand<'a> {
    pub operator: Operator,
    pub at: u32,
    pub operand: Expression<'a>,
}

#[derive(Clone, Copy, Debug, PartialEq, Eq)]
pub enum Downgrade {
    Declassify,
    Endorse,
}

#[derive(Debug)]
pub enum Right<'a> {
    Plain(Expression<'a>),
    Call {
        method: Name<'a>,
        arguments: Vec<Expression<'a>>,
    },
    New {
        class: Name<'a>,
        store: Name<'a>,
        arguments: Vec<Expression<'a>>,
        at: u32,
    },
    Downgrade {
        downgrade: Downgrade,
        value: Expression<'a>,
        from: Name<'a>,
        to: Name<'a>,
        at: u32,
    },
}

#[derive(Debug)]
pub enum Statement<'a> {
    Declare {
        sort: Sort<'a>,
        name: Name<'a>,
        label: Name<'a>,
        value: Expression<'a>,
        at: u32,
    },
    Assign {
        name: Name<'a>,
        right: Right<'a>,
    },
    Write {
        object: Name<'a>,
        field: Name<'a>,
        value: Expression<'a>,
    },
    Call {
        method: Name<'a>,
        arguments: Vec<Expression<'a>>,
    },
    If {
        condition: Expression<'a>,
        block: Vec<Statement<'a>>,
        otherwise: Vec<Statement<'a>>,
    },
    While {
        condition: Expression<'a>,
        block: Vec<Statement<'a>>,
    },
    Atomic {
        label: Name<'a>,
        block: Vec<Statement<'a>>,
        otherwise: Vec<Statement<'a>>,
        at: u32,
    },
    Fail {
        at: u32,
    },
}

#[derive(Debug)]
pub struct Parameter<'a> {
    pub sort: Sort<'a>,
    pub name: Name<'a>,
    pub label: Name<'a>,
}

#[derive(Debug)]
pub struct Returns<'a> {
    pub sort: Sort<'a>,
    pub label: Name<'a>,
}

#[derive(Debug)]
pub struct Return<'a> {
    pub value: Expression<'a>,
    pub at: u32,
}

#[derive(Debug)]
pub struct Method<'a> {
    pub name: Name<'a>,
    pub parameters: Vec<Parameter<'a>>,
    pub returns: Option<Returns<'a>>,
    pub begin: Name<'a>,
    pub fails: bool,
    pub authority: Vec<Name<'a>>,
    pub body: Vec<Statement<'a>>,
    pub result: Option<Return<'a>>,
}

#[derive(Debug)]
pub struct Program<'a> {
    pub nodes: Vec<Node<'a>>,
    pub delegations: Vec<Delegation<'a>>,
    pub labels: Vec<LabelText<'a>>,
    pub classes: Vec<Class<'a>>,
    pub methods: Vec<Method<'a>>,
}

#[derive(Debug)]
pub enum Literal<'a> {
    Number(i32),
    Null,
    Root(Name<'a>),
}

#[derive(Debug)]
pub struct Given<'a> {
    pub literal: Literal<'a>,
    pub at: u32,
}

#[derive(Debug)]
pub struct Root<'a> {
    pub name: Name<'a>,
    pub class: Name<'a>,
    pub store: Name<'a>,
    pub values: Vec<Given<'a>>,
}

#[derive(Debug)]
pub struct Request<'a> {
    pub method: Name<'a>,
    pub arguments: Vec<Given<'a>>,
}

#[derive(Debug)]
pub struct Session<'a> {
    pub worker: Name<'a>,
    pub requests: Vec<Request<'a>>,
}

#[derive(Debug)]
pub struct Post<'a> {
    pub sender: Name<'a>,
    pub receiver: Name<'a>,
    pub bytes: Vec<u8>,
}

#[derive(Debug)]
pub struct Crash<'a> {
    pub node: Name<'a>,
    pub after: u32,
    pub keep: Option<u32>,
}

#[derive(Debug)]
pub enum Step<'a> {
    Begin(Name<'a>),
    Resume(Name<'a>),
    Deliver {
        sender: Name<'a>,
        receiver: Name<'a>,
    },
    Idle {
        worker: Name<'a>,
        node: Name<'a>,
    },
    Recover(Name<'a>),
}

#[derive(Debug)]
pub enum Event<'a> {
    Step(Step<'a>),
    CrashIn { keep: u32, step: Step<'a> },
    Post(Name<'a>),
    Crash(Name<'a>),
}

/// A whole bundle.
#[derive(Debug)]
pub struct Start<'a> {
    pub program: Program<'a>,
    pub roots: Vec<Root<'a>>,
    pub sessions: Vec<Session<'a>>,
    pub posts: Vec<Post<'a>>,
    pub crashes: Vec<Crash<'a>>,
    pub cache: u32,
    pub schedule: Vec<Event<'a>>,
}
