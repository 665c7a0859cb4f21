//! From names to numbers. What is wrong with names and types is found on the way.
use crate::refusal::{NameRule, Refusal};
use crate::resolved::{self as to, Resolved, Use};
use crate::scope::{Faults, Scope, Space, Spaces, space};
use crate::tree::*;
use crate::values::{Oid, Value};

/// What type a value has, as far as its names are declared.
#[derive(Clone, Copy, Debug, PartialEq, Eq)]
enum Type {
    Number,
    Object(usize),
    Null,
    Unknown,
}

impl Type {
    /// Whether what is of this type may hold a value of the other.
    fn takes(self, value: Type) -> bool {
        match (self, value) {
            (Type::Unknown | Type::Null, _) | (_, Type::Unknown) => true,
            (Type::Number, _) => value == Type::Number,
            (Type::Object(_), _) => value == self || value == Type::Null,
        }
    }

    /// Whether values of these types may be asked to be one.
    fn comparable(self, other: Type) -> bool {
        match self {
            Type::Null => matches!(other, Type::Object(_) | Type::Unknown),
            _ => self.takes(other),
        }
    }

    fn leads(self) -> bool {
        matches!(self, Type::Object(_) | Type::Unknown)
    }
}

/// An expression's type with its place.
type Typed = (Type, u32);

pub fn resolved<'a>(start: Start<'a>) -> Result<Resolved<'a>, Refusal> {
    let mut faults = Faults::default();
    let spaces = Spaces::of(&start, &mut faults);
    let fields = start
        .program
        .classes
        .iter()
        .map(|class| space(class.fields.iter().map(|x| &x.name), &mut faults))
        .collect();
    let mut nodes = 0;
    let numbers = start
        .program
        .nodes
        .iter()
        .map(|node| (nodes, nodes += u16::from(node.role.is_node())).0)
        .collect();
    let mut naming = Naming {
        start: &start,
        spaces,
        fields,
        numbers,
        field_types: Vec::new(),
        parameter_types: Vec::new(),
        roots: Vec::new(),
        faults,
        sites: 0,
    };
    naming.find_types();
    let found = naming.bundle();
    naming.faults.outcome()?;
    Ok(found)
}

/// As many values as there are takers, each of which has the type of its own.
fn expect_all(faults: &mut Faults, name: &Name<'_>, takers: &[Type], values: &[Typed]) {
    if takers.len() != values.len() {
        faults.add(NameRule::Arity, name.at);
    }
    for (taker, (value, at)) in takers.iter().zip(values) {
        if !taker.takes(*value) {
            faults.add(NameRule::Type, *at);
        }
    }
}

struct Naming<'s, 'a> {
    start: &'s Start<'a>,
    spaces: Spaces<'s>,
    fields: Vec<Space<'s>>,
    /// How many workers and stores stand before each principal.
    numbers: Vec<u16>,
    /// The types of each class's fields and of each method's parameters.
    field_types: Vec<Vec<Type>>,
    parameter_types: Vec<Vec<Type>>,
    /// The name and the type of each root's object.
    roots: Vec<(Oid, Type)>,
    faults: Faults,
    sites: usize,
}

impl<'s, 'a> Naming<'s, 'a> {
    // ---- names

    fn found(&mut self, number: Option<usize>, name: &Name<'a>) -> Use {
        if number.is_none() {
            self.faults.add(NameRule::Unknown, name.at);
        }
        Use {
            number: number.unwrap_or(0) as u16,
            at: name.at,
        }
    }

    fn principal(&mut self, name: &Name<'a>) -> Use {
        self.found(self.spaces.principals.get(&*name.text).copied(), name)
    }

    /// A worker or store, which is to be of this kind.
    fn node(&mut self, name: &Name<'a>, fits: fn(Role) -> bool) -> Use {
        let Some(&number) = self.spaces.principals.get(&*name.text) else {
            return self.found(None, name);
        };
        if !fits(self.start.program.nodes[number].role) {
            self.faults.add(NameRule::Node, name.at);
        }
        Use {
            number: self.numbers[number],
            at: name.at,
        }
    }

    fn label(&mut self, name: &Name<'a>) -> Use {
        self.found(self.spaces.labels.get(&*name.text).copied(), name)
    }

    fn class_number(&self, name: &Name<'a>) -> Option<usize> {
        self.spaces.classes.get(&*name.text).copied()
    }

    fn class(&mut self, name: &Name<'a>) -> Use {
        self.found(self.class_number(name), name)
    }

    fn method_number(&self, name: &Name<'a>) -> Option<usize> {
        self.spaces.methods.get(&*name.text).copied()
    }

    fn method(&mut self, name: &Name<'a>) -> Use {
        self.found(self.method_number(name), name)
    }

    fn sort(&mut self, sort: &Sort<'a>) -> to::Sort {
        match sort {
            Sort::Int => to::Sort::Int,
            Sort::Class(name) => to::Sort::Class(self.class(name)),
        }
    }

    fn site(&mut self) -> u16 {
        self.sites += 1;
        (self.sites - 1) as u16
    }

    // ---- types

    fn sort_type(&self, sort: &Sort<'a>) -> Type {
        match sort {
            Sort::Int => Type::Number,
            Sort::Class(name) => self.class_number(name).map_or(Type::Unknown, Type::Object),
        }
    }

    fn expect(&mut self, taker: Type, (value, at): Typed) {
        if !taker.takes(value) {
            self.faults.add(NameRule::Type, at);
        }
    }

    /// As many values as there are parameters, each of the type of its own.
    fn expect_arguments(&mut self, method: Option<usize>, name: &Name<'a>, values: &[Typed]) {
        if let Some(method) = method {
            expect_all(
                &mut self.faults,
                name,
                &self.parameter_types[method],
                values,
            );
        }
    }

    fn expect_fields(&mut self, class: Option<usize>, name: &Name<'a>, values: &[Typed]) {
        if let Some(class) = class {
            expect_all(&mut self.faults, name, &self.field_types[class], values);
        }
    }

    fn find_types(&mut self) {
        let program = &self.start.program;
        let field_types = program.classes.iter().map(|class| {
            class
                .fields
                .iter()
                .map(|x| self.sort_type(&x.sort))
                .collect()
        });
        let parameter_types = program.methods.iter().map(|method| {
            method
                .parameters
                .iter()
                .map(|x| self.sort_type(&x.sort))
                .collect()
        });
        let roots = self.start.roots.iter().zip(0..).map(|(root, number)| {
            let store = self
                .spaces
                .principals
                .get(&*root.store.text)
                .map_or(0, |x| self.numbers[*x]);
            let class = self.class_number(&root.class);
            (
                Oid::of_root(store, class.unwrap_or(0) as u16, number),
                class.map_or(Type::Unknown, Type::Object),
            )
        });
        let found: (Vec<_>, Vec<_>, Vec<_>) = (
            field_types.collect(),
            parameter_types.collect(),
            roots.collect(),
        );
        (self.field_types, self.parameter_types, self.roots) = found;
    }

    // ---- declarations

    fn bundle(&mut self) -> Resolved<'a> {
        let start = self.start;
        let program = &start.program;
        Resolved {
            nodes: self.nodes(),
            pairs: program
                .delegations
                .iter()
                .map(|x| {
                    (
                        self.principal(&x.actor).number,
                        self.principal(&x.principal).number,
                    )
                })
                .collect(),
            labels: program.labels.iter().map(|x| self.label_text(x)).collect(),
            classes: program.classes.iter().map(|x| self.class_text(x)).collect(),
            methods: program
                .methods
                .iter()
                .map(|x| self.method_text(x))
                .collect(),
            roots: start
                .roots
                .iter()
                .enumerate()
                .map(|(number, x)| self.root(number as u32, x))
                .collect(),
            sessions: self.sessions(),
            posts: start.posts.iter().map(|x| self.post(x)).collect(),
            crashes: start.crashes.iter().map(|x| self.crash(x)).collect(),
            cache: start.cache,
            schedule: start.schedule.iter().map(|x| self.event(x)).collect(),
        }
    }

    fn nodes(&self) -> Vec<to::Principal<'a>> {
        let named = self.start.program.nodes.iter().zip(&self.numbers);
        named
            .map(|(x, number)| to::Principal {
                role: x.role,
                name: x.name.clone(),
                node: x.role.is_node().then_some(*number),
            })
            .collect()
    }

    fn label_text(&mut self, label: &LabelText<'a>) -> to::Label<'a> {
        let mut said = to::Label {
            name: label.name.clone(),
            readers: Vec::new(),
            writers: Vec::new(),
        };
        for policy in &label.policies {
            let owner = self.principal(&policy.owner).number;
            let others = policy
                .others
                .iter()
                .map(|x| self.principal(x).number)
                .collect();
            match policy.aspect {
                Aspect::Confidentiality => said.readers.push(to::Policy { owner, others }),
                Aspect::Integrity => said.writers.push(to::Policy { owner, others }),
            }
        }
        said
    }

    fn class_text(&mut self, class: &Class<'a>) -> to::Class<'a> {
        to::Class {
            name: class.name.clone(),
            label: self.label(&class.label),
            access: self.label(&class.access),
            fields: class
                .fields
                .iter()
                .map(|x| to::Field {
                    sort: self.sort(&x.sort),
                    name: x.name.clone(),
                })
                .collect(),
        }
    }

    fn method_text(&mut self, method: &'s Method<'a>) -> to::Method<'a> {
        let mut body = Body {
            scope: Scope::default(),
            sorts: Vec::new(),
            locals: Vec::new(),
            naming: self,
        };
        for x in &method.parameters {
            body.declare(&x.sort, &x.name, &x.label);
        }
        let naming = &mut *body.naming;
        let returns = method.returns.as_ref().map(|x| to::Returns {
            sort: naming.sort(&x.sort),
            label: naming.label(&x.label),
        });
        let begin = naming.label(&method.begin);
        let authority = method
            .authority
            .iter()
            .map(|x| naming.principal(x))
            .collect();
        if method.returns.is_some() != method.result.is_some() {
            naming.faults.add(NameRule::Type, method.name.at);
        }
        let statements = method.body.iter().map(|x| body.statement(x)).collect();
        let result = method.result.as_ref().map(|x| {
            let (value, typed) = body.expression(&x.value);
            if let Some(returns) = &method.returns {
                body.naming
                    .expect(body.naming.sort_type(&returns.sort), typed);
            }
            to::Return { value, at: x.at }
        });
        to::Method {
            name: method.name.clone(),
            parameters: method.parameters.len(),
            locals: body.locals,
            returns,
            begin,
            fails: method.fails,
            authority,
            body: statements,
            result,
        }
    }

    // ---- runs

    fn given(&mut self, given: &Given<'a>) -> (Value, Typed) {
        match &given.literal {
            Literal::Number(n) => (Value::Int(*n), (Type::Number, given.at)),
            Literal::Null => (Value::Null, (Type::Null, given.at)),
            Literal::Root(name) => match self.spaces.roots.get(&*name.text).copied() {
                None => {
                    self.faults.add(NameRule::Unknown, name.at);
                    (Value::Null, (Type::Unknown, given.at))
                }
                Some(number) => {
                    let (oid, kind) = self.roots[number];
                    (Value::Ref(oid), (kind, given.at))
                }
            },
        }
    }

    fn root(&mut self, number: u32, root: &Root<'a>) -> to::Root<'a> {
        let class = self.class(&root.class);
        let store = self.node(&root.store, Role::is_store);
        let (values, types): (Vec<_>, Vec<_>) = root.values.iter().map(|x| self.given(x)).unzip();
        self.expect_fields(self.class_number(&root.class), &root.name, &types);
        to::Root {
            name: root.name.clone(),
            oid: Oid::of_root(store.number, class.number, number),
            values,
        }
    }

    fn sessions(&mut self) -> Vec<to::Session> {
        let start = self.start;
        let mut workers = Vec::new();
        let mut sessions = Vec::with_capacity(start.sessions.len());
        for session in &start.sessions {
            let worker = self.node(&session.worker, Role::is_honest_worker);
            let principal = self.spaces.principals.get(&*session.worker.text).copied();
            if let Some(principal) = principal.filter(|x| start.program.nodes[*x].role.is_worker())
            {
                if workers.contains(&principal) {
                    self.faults.add(NameRule::Doubled, session.worker.at);
                } else {
                    workers.push(principal);
                }
            }
            let requests = session
                .requests
                .iter()
                .zip(1..)
                .map(|(x, number)| self.request(worker.number, number, x))
                .collect();
            sessions.push(to::Session { worker, requests });
        }
        sessions
    }

    fn request(&mut self, worker: u16, number: u32, request: &Request<'a>) -> to::Request {
        let number_of_method = self.method_number(&request.method);
        let method = self.found(number_of_method, &request.method);
        let (arguments, types): (Vec<_>, Vec<_>) =
            request.arguments.iter().map(|x| self.given(x)).unzip();
        self.expect_arguments(number_of_method, &request.method, &types);
        to::Request {
            worker,
            number,
            method: method.number,
            arguments,
            at: request.method.at,
        }
    }

    fn post(&mut self, post: &Post<'a>) -> to::Post {
        to::Post {
            sender: self.node(&post.sender, Role::is_hostile).number,
            receiver: self.node(&post.receiver, Role::is_honest).number,
            bytes: post.bytes.clone(),
        }
    }

    fn crash(&mut self, crash: &Crash<'a>) -> to::Crash {
        to::Crash {
            node: self.node(&crash.node, Role::is_honest).number,
            after: crash.after,
            keep: crash.keep,
        }
    }

    fn step(&mut self, step: &Step<'a>) -> to::Step {
        match step {
            Step::Begin(x) => to::Step::Begin(self.node(x, Role::is_honest_worker).number),
            Step::Resume(x) => to::Step::Resume(self.node(x, Role::is_honest_worker).number),
            Step::Deliver { sender, receiver } => to::Step::Deliver {
                sender: self.node(sender, Role::is_node).number,
                receiver: self.node(receiver, Role::is_honest).number,
            },
            Step::Idle { worker, node } => to::Step::Idle {
                worker: self.node(worker, Role::is_honest_worker).number,
                node: self.node(node, Role::is_node).number,
            },
            Step::Recover(x) => to::Step::Recover(self.node(x, Role::is_honest).number),
        }
    }

    fn event(&mut self, event: &Event<'a>) -> to::Event {
        match event {
            Event::Step(step) => to::Event::Step(self.step(step)),
            Event::CrashIn { keep, step } => to::Event::CrashIn {
                keep: *keep,
                step: self.step(step),
            },
            Event::Post(x) => to::Event::Post(self.node(x, Role::is_hostile).number),
            Event::Crash(x) => to::Event::Crash(self.node(x, Role::is_honest).number),
        }
    }
}

/// The body of a method, with its locals so far.
struct Body<'n, 's, 'a> {
    naming: &'n mut Naming<'s, 'a>,
    scope: Scope<'s>,
    sorts: Vec<&'s Sort<'a>>,
    locals: Vec<to::Local<'a>>,
}

impl<'s, 'a> Body<'_, 's, 'a> {
    fn declare(&mut self, sort: &'s Sort<'a>, name: &'s Name<'a>, label: &'s Name<'a>) -> u16 {
        let number = self.scope.declare(name, &mut self.naming.faults);
        self.sorts.push(sort);
        let local = to::Local {
            sort: self.naming.sort(sort),
            name: name.clone(),
            label: self.naming.label(label),
        };
        self.locals.push(local);
        number as u16
    }

    fn local(&mut self, name: &Name<'a>) -> (Use, Type) {
        let number = self.scope.number(name);
        let found = self.naming.found(number, name);
        (
            found,
            number.map_or(Type::Unknown, |x| self.naming.sort_type(self.sorts[x])),
        )
    }

    /// A field of what a local leads to. What stands before the dot has this place.
    fn reached(&mut self, object: &Name<'a>, field: &Name<'a>, at: u32) -> (Use, u16, Type) {
        let (local, kind) = self.local(object);
        if !kind.leads() {
            self.naming.faults.add(NameRule::Type, at);
        }
        let Type::Object(class) = kind else {
            return (local, 0, Type::Unknown);
        };
        let Some(&number) = self.naming.fields[class].get(&*field.text) else {
            self.naming.faults.add(NameRule::Unknown, field.at);
            return (local, 0, Type::Unknown);
        };
        let start = self.naming.start;
        (
            local,
            number as u16,
            self.naming
                .sort_type(&start.program.classes[class].fields[number].sort),
        )
    }

    // ---- expressions

    fn expression(&mut self, e: &Expression<'a>) -> (to::Expression, Typed) {
        let (form, kind) = match &e.form {
            Form::Number(n) => (to::Form::Number(*n), Type::Number),
            Form::Null => (to::Form::Null, Type::Null),
            Form::Local(name) => {
                let (local, kind) = self.local(name);
                (to::Form::Local(local), kind)
            }
            Form::Read { object, field } => {
                let (object, field, kind) = self.reached(object, field, e.at);
                (
                    to::Form::Read {
                        object,
                        field,
                        site: self.naming.site(),
                    },
                    kind,
                )
            }
            Form::Unary { operator, operand } => {
                let operand = Box::new(self.number(operand));
                (
                    to::Form::Unary {
                        operator: *operator,
                        operand,
                    },
                    Type::Number,
                )
            }
            Form::Chain { first, others } => {
                let first = Box::new(self.number(first));
                let others = others
                    .iter()
                    .map(|x| to::Operand {
                        operator: x.operator,
                        at: x.at,
                        operand: self.number(&x.operand),
                    })
                    .collect();
                (to::Form::Chain { first, others }, Type::Number)
            }
            Form::Compared {
                left,
                comparison,
                right,
            } => {
                let (left, right) = self.compared(*comparison, left, right, e.at);
                (
                    to::Form::Compared {
                        left: Box::new(left),
                        comparison: *comparison,
                        right: Box::new(right),
                    },
                    Type::Number,
                )
            }
        };
        (to::Expression { form, at: e.at }, (kind, e.at))
    }

    fn number(&mut self, e: &Expression<'a>) -> to::Expression {
        let (found, typed) = self.expression(e);
        self.naming.expect(Type::Number, typed);
        found
    }

    fn compared(
        &mut self,
        comparison: Comparison,
        left: &Expression<'a>,
        right: &Expression<'a>,
        at: u32,
    ) -> (to::Expression, to::Expression) {
        if !matches!(comparison, Comparison::Equal | Comparison::NotEqual) {
            return (self.number(left), self.number(right));
        }
        let (left, (a, _)) = self.expression(left);
        let (right, (b, _)) = self.expression(right);
        if !a.comparable(b) {
            self.naming.faults.add(NameRule::Type, at);
        }
        (left, right)
    }

    fn expressions(&mut self, es: &[Expression<'a>]) -> (Vec<to::Expression>, Vec<Typed>) {
        es.iter().map(|e| self.expression(e)).unzip()
    }

    // ---- statements

    fn block(&mut self, statements: &'s [Statement<'a>]) -> Vec<to::Statement> {
        let known = self.scope.enter();
        let block = statements.iter().map(|x| self.statement(x)).collect();
        self.scope.leave(known);
        block
    }

    fn call(
        &mut self,
        method: &Name<'a>,
        arguments: &[Expression<'a>],
    ) -> (Use, Vec<to::Expression>) {
        let found = self.naming.method(method);
        let (arguments, types) = self.expressions(arguments);
        self.naming
            .expect_arguments(self.naming.method_number(method), method, &types);
        (found, arguments)
    }

    fn right(&mut self, right: &'s Right<'a>, taker: Type) -> to::Right {
        match right {
            Right::Plain(e) => {
                let (found, typed) = self.expression(e);
                self.naming.expect(taker, typed);
                to::Right::Plain(found)
            }
            Right::Call { method, arguments } => {
                let start = self.naming.start;
                let returns = self
                    .naming
                    .method_number(method)
                    .map(|x| &start.program.methods[x].returns);
                match returns {
                    None => {}
                    Some(None) => self.naming.faults.add(NameRule::Type, method.at),
                    Some(Some(returns)) => self
                        .naming
                        .expect(taker, (self.naming.sort_type(&returns.sort), method.at)),
                }
                let (method, arguments) = self.call(method, arguments);
                to::Right::Call { method, arguments }
            }
            Right::New {
                class,
                store,
                arguments,
                at,
            } => {
                let site = self.naming.site();
                let (values, types) = self.expressions(arguments);
                self.naming
                    .expect_fields(self.naming.class_number(class), class, &types);
                let made = self
                    .naming
                    .class_number(class)
                    .map_or(Type::Unknown, Type::Object);
                self.naming.expect(taker, (made, *at));
                let class = self.naming.class(class);
                let store = self.naming.node(store, Role::is_store);
                to::Right::New {
                    class,
                    store,
                    arguments: values,
                    site,
                    at: *at,
                }
            }
            Right::Downgrade {
                downgrade,
                value,
                from,
                to,
                at,
            } => {
                let site = self.naming.site();
                let (value, (kind, _)) = self.expression(value);
                self.naming.expect(taker, (kind, *at));
                let (from, to) = (self.naming.label(from), self.naming.label(to));
                to::Right::Downgrade {
                    downgrade: *downgrade,
                    value,
                    from,
                    to,
                    site,
                    at: *at,
                }
            }
        }
    }

    fn statement(&mut self, s: &'s Statement<'a>) -> to::Statement {
        match s {
            Statement::Declare {
                sort,
                name,
                label,
                value,
                at,
            } => {
                let (value, typed) = self.expression(value);
                self.naming.expect(self.naming.sort_type(sort), typed);
                to::Statement::Assign {
                    local: self.declare(sort, name, label),
                    right: to::Right::Plain(value),
                    at: *at,
                }
            }
            Statement::Assign { name, right } => {
                let (local, kind) = self.local(name);
                to::Statement::Assign {
                    local: local.number,
                    right: self.right(right, kind),
                    at: name.at,
                }
            }
            Statement::Write {
                object,
                field,
                value,
            } => {
                let site = self.naming.site();
                let (object, field, kind) = self.reached(object, field, object.at);
                let (value, typed) = self.expression(value);
                self.naming.expect(kind, typed);
                to::Statement::Write {
                    object,
                    field,
                    value,
                    site,
                }
            }
            Statement::Call { method, arguments } => {
                let (method, arguments) = self.call(method, arguments);
                to::Statement::Call { method, arguments }
            }
            Statement::If {
                condition,
                block,
                otherwise,
            } => to::Statement::If {
                condition: self.number(condition),
                block: self.block(block),
                otherwise: self.block(otherwise),
            },
            Statement::While { condition, block } => to::Statement::While {
                condition: self.number(condition),
                block: self.block(block),
            },
            Statement::Atomic {
                label,
                block,
                otherwise,
                at,
            } => to::Statement::Atomic {
                label: self.naming.label(label),
                block: self.block(block),
                otherwise: self.block(otherwise),
                at: *at,
            },
            Statement::Fail { at } => to::Statement::Fail { at: *at },
        }
    }
}
