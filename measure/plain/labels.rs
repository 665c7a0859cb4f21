//! The rules of labels.
use crate::refusal::{LabelRule, Refusal};
use crate::resolved::*;
use crate::tree::{Downgrade, Operator, Role};

/// Who acts for whom, and which label flows to which, as rows of bits.
struct Relations {
    acts: Vec<u64>,
    flows: Vec<u64>,
    /// The same of confidentiality alone.
    hides: Vec<u64>,
}

fn has(row: u64, number: u16) -> bool {
    row >> number & 1 == 1
}

/// The least relation with these pairs that leads from each to itself and carries on.
fn closed(count: usize, pairs: &[(u16, u16)]) -> Vec<u64> {
    let mut rows: Vec<u64> = (0..count).map(|p| 1 << p).collect();
    for (p, q) in pairs {
        let reached = rows[usize::from(*q)];
        for row in &mut rows {
            if has(*row, *p) {
                *row |= reached;
            }
        }
    }
    rows
}

impl Relations {
    fn of(r: &Resolved<'_>) -> Relations {
        let mut relations = Relations {
            acts: closed(r.nodes.len(), &r.pairs),
            flows: Vec::new(),
            hides: Vec::new(),
        };
        for a in &r.labels {
            let row = |holds: &dyn Fn(&Label<'_>) -> bool| {
                r.labels
                    .iter()
                    .enumerate()
                    .filter(|(_, b)| holds(b))
                    .fold(0, |row, (number, _)| row | 1 << number)
            };
            let hides = row(&|b| relations.covered(&b.readers, &a.readers, &[]));
            let flows = hides & row(&|b| relations.covered(&a.writers, &b.writers, &[]));
            relations.hides.push(hides);
            relations.flows.push(flows);
        }
        relations
    }

    fn acts(&self, p: u16, q: u16) -> bool {
        has(self.acts[usize::from(p)], q)
    }

    fn acts_within(&self, p: u16, policy: &Policy) -> bool {
        self.acts(p, policy.owner) || policy.others.iter().any(|q| self.acts(p, *q))
    }

    fn covers(&self, by: &Policy, policy: &Policy) -> bool {
        self.acts(by.owner, policy.owner) && by.others.iter().all(|p| self.acts_within(*p, policy))
    }

    /// Each of these policies is covered by one of those, or by one of the authority.
    fn covered(&self, by: &[Policy], policies: &[Policy], authority: &[Use]) -> bool {
        policies.iter().all(|x| {
            by.iter().any(|y| self.covers(y, x))
                || authority.iter().any(|p| self.acts(p.number, x.owner))
        })
    }

    fn within_all(&self, p: u16, policies: &[Policy]) -> bool {
        policies.iter().all(|x| self.acts_within(p, x))
    }
}

/// A rule that is broken at a place, and between which.
struct Broken {
    at: u32,
    rule: LabelRule,
    from: String,
    to: String,
}

struct Checker<'r, 'a> {
    r: &'r Resolved<'a>,
    relations: Relations,
    /// The place among principals of each worker and store.
    principals: Vec<u16>,
    first: Option<Broken>,
}

/// The first rule that is broken is refused.
pub fn check(r: &Resolved<'_>) -> Result<(), Refusal> {
    let principals = (0..)
        .zip(&r.nodes)
        .filter(|(_, x)| x.node.is_some())
        .map(|(number, _)| number)
        .collect();
    let mut checker = Checker {
        r,
        relations: Relations::of(r),
        principals,
        first: None,
    };
    for method in &r.methods {
        Within {
            checker: &mut checker,
            method,
        }
        .whole();
    }
    for root in &r.roots {
        checker.placed(root.name.at, root.oid.store, root.oid.class);
    }
    checker.requests();
    match checker.first {
        Some(Broken { at, rule, from, to }) => Err(Refusal::Label { rule, at, from, to }),
        None => Ok(()),
    }
}

impl Checker<'_, '_> {
    fn broken(
        &mut self,
        rule: LabelRule,
        at: u32,
        sides: impl FnOnce(&Resolved<'_>) -> (String, String),
    ) {
        if self
            .first
            .as_ref()
            .is_none_or(|first| (at, rule) < (first.at, first.rule))
        {
            let (from, to) = sides(self.r);
            self.first = Some(Broken { at, rule, from, to });
        }
    }

    fn all_flow(&mut self, rule: LabelRule, at: u32, from: impl IntoIterator<Item = u16>, to: u16) {
        for label in from {
            if !has(self.relations.flows[usize::from(label)], to) {
                self.broken(rule, at, |r| (label_text(r, label), label_text(r, to)));
            }
        }
    }

    fn all_hidden(&mut self, at: u32, from: impl IntoIterator<Item = u16>, to: u16) {
        for label in from {
            if !has(self.relations.hides[usize::from(label)], to) {
                self.broken(LabelRule::Access, at, |r| {
                    (label_text(r, label), label_text(r, to))
                });
            }
        }
    }

    fn all_fail(&mut self, at: u32, from: impl IntoIterator<Item = u16>, to: Option<u16>) {
        match to {
            Some(to) => self.all_flow(LabelRule::Fail, at, from, to),
            None => from.into_iter().for_each(|label| {
                self.broken(LabelRule::Fail, at, |r| {
                    (label_text(r, label), "none".to_string())
                });
            }),
        }
    }

    /// The store may hold the class.
    fn placed(&mut self, at: u32, store: u16, class: u16) {
        let p = self.principals[usize::from(store)];
        let class = &self.r.classes[usize::from(class)];
        let (label, access) = (
            &self.r.labels[usize::from(class.label.number)],
            &self.r.labels[usize::from(class.access.number)],
        );
        let holds = self.relations.within_all(p, &label.readers)
            && self.relations.within_all(p, &access.readers)
            && self.relations.within_all(p, &label.writers)
            && matches!(self.r.nodes[usize::from(p)].role, Role::Store { .. });
        if !holds {
            self.broken(LabelRule::Placement, at, |r| {
                (label_text(r, class.label.number), principal_text(r, p))
            });
        }
    }

    fn downgraded(&mut self, downgrade: Downgrade, at: u32, from: u16, to: u16, authority: &[Use]) {
        let (a, b) = (
            &self.r.labels[usize::from(from)],
            &self.r.labels[usize::from(to)],
        );
        let (readers, writers): (&[Use], &[Use]) = match downgrade {
            Downgrade::Declassify => (authority, &[]),
            Downgrade::Endorse => (&[], authority),
        };
        let flows = self.relations.covered(&b.readers, &a.readers, readers)
            && self.relations.covered(&a.writers, &b.writers, writers);
        if !flows {
            let rule = match downgrade {
                Downgrade::Declassify => LabelRule::Declassify,
                Downgrade::Endorse => LabelRule::Endorse,
            };
            self.broken(rule, at, |r| (label_text(r, from), label_text(r, to)));
        }
    }

    /// A request's worker acts for all whose authority its method uses.
    fn requests(&mut self) {
        let used = used_authority(self.r);
        for session in &self.r.sessions {
            let worker = self.principals[usize::from(session.worker.number)];
            let acts = self.relations.acts[usize::from(worker)];
            for request in &session.requests {
                let missing = used[usize::from(request.method)] & !acts;
                if missing != 0 {
                    let p = missing.trailing_zeros() as u16;
                    self.broken(LabelRule::Authority, request.at, |r| {
                        (principal_text(r, worker), principal_text(r, p))
                    });
                }
            }
        }
    }
}

fn label_text(r: &Resolved<'_>, label: u16) -> String {
    r.labels[usize::from(label)].name.text.to_string()
}

fn principal_text(r: &Resolved<'_>, p: u16) -> String {
    r.nodes[usize::from(p)].name.text.to_string()
}

fn called(block: &[Statement], found: &mut Vec<u16>) {
    for statement in block {
        match statement {
            Statement::Assign {
                right: Right::Call { method, .. },
                ..
            }
            | Statement::Call { method, .. } => found.push(method.number),
            Statement::If {
                block, otherwise, ..
            }
            | Statement::Atomic {
                block, otherwise, ..
            } => {
                called(block, found);
                called(otherwise, found);
            }
            Statement::While { block, .. } => called(block, found),
            Statement::Assign { .. } | Statement::Write { .. } | Statement::Fail { .. } => {}
        }
    }
}

/// Whose authority is used by each method and those that it reaches.
fn used_authority(r: &Resolved<'_>) -> Vec<u64> {
    let mut used: Vec<u64> = r
        .methods
        .iter()
        .map(|m| m.authority.iter().fold(0, |row, p| row | 1 << p.number))
        .collect();
    let calls: Vec<Vec<u16>> = r
        .methods
        .iter()
        .map(|m| {
            let mut found = Vec::new();
            called(&m.body, &mut found);
            found
        })
        .collect();
    loop {
        let mut grown = false;
        for (method, callees) in calls.iter().enumerate() {
            let all = callees
                .iter()
                .fold(used[method], |row, callee| row | used[usize::from(*callee)]);
            grown |= all != used[method];
            used[method] = all;
        }
        if !grown {
            return used;
        }
    }
}

/// What is checked in one method.
struct Within<'c, 'r, 'a> {
    checker: &'c mut Checker<'r, 'a>,
    method: &'r Method<'a>,
}

/// The labels that decide whether a statement runs, each once.
type Deciding = Vec<u16>;

fn under(pc: &[u16], labels: &[u16]) -> Deciding {
    let mut inside = pc.to_vec();
    for label in labels {
        if !inside.contains(label) {
            inside.push(*label);
        }
    }
    inside
}

fn both<'x>(pc: &'x [u16], labels: &'x [u16]) -> impl Iterator<Item = u16> + 'x {
    pc.iter().chain(labels).copied()
}

impl<'r> Within<'_, 'r, '_> {
    fn whole(&mut self) {
        let method = self.method;
        let pc = [method.begin.number];
        let failure = method.fails.then_some(method.begin.number);
        self.block(&method.body, &pc, failure);
        if let (Some(result), Some(returns)) = (&method.result, &method.returns) {
            let labels = self.expression(&result.value, &pc, failure);
            self.checker.all_flow(
                LabelRule::Write,
                result.at,
                both(&pc, &labels),
                returns.label.number,
            );
        }
    }

    fn label_of(&self, local: u16) -> u16 {
        self.method.locals[usize::from(local)].label.number
    }

    fn class_behind(&self, object: Use) -> Option<&'r Class<'r>> {
        match self.method.locals[usize::from(object.number)].sort {
            Sort::Int => None,
            Sort::Class(class) => Some(&self.checker.r.classes[usize::from(class.number)]),
        }
    }

    /// An object is reached through a local: its store learns of it, and it may be null.
    fn reaches(&mut self, object: Use, pc: &[u16], failure: Option<u16>) {
        let label = [self.label_of(object.number)];
        if let Some(class) = self.class_behind(object) {
            self.checker
                .all_hidden(object.at, both(pc, &label), class.access.number);
        }
        self.checker.all_fail(object.at, both(pc, &label), failure);
    }

    /// The labels of what is read in an expression.
    fn expression(&mut self, e: &Expression, pc: &[u16], failure: Option<u16>) -> Vec<u16> {
        let mut labels = Vec::new();
        self.add_expression(e, pc, failure, &mut labels);
        labels
    }

    fn add_expression(
        &mut self,
        e: &Expression,
        pc: &[u16],
        failure: Option<u16>,
        labels: &mut Vec<u16>,
    ) {
        match &e.form {
            Form::Number(_) | Form::Null => {}
            Form::Local(x) => labels.push(self.label_of(x.number)),
            Form::Read { object, .. } => {
                self.reaches(*object, pc, failure);
                labels.push(self.label_of(object.number));
                labels.extend(self.class_behind(*object).map(|class| class.label.number));
            }
            Form::Unary { operand, .. } => self.add_expression(operand, pc, failure, labels),
            Form::Chain { first, others } => {
                self.add_expression(first, pc, failure, labels);
                for other in others {
                    let before = labels.len();
                    self.add_expression(&other.operand, pc, failure, labels);
                    if other.operator == Operator::Divide {
                        self.checker
                            .all_fail(other.at, both(pc, &labels[before..]), failure);
                    }
                }
            }
            Form::Compared { left, right, .. } => {
                self.add_expression(left, pc, failure, labels);
                self.add_expression(right, pc, failure, labels);
            }
        }
    }

    fn given(&mut self, e: &Expression, pc: &[u16], failure: Option<u16>, to: u16) {
        let labels = self.expression(e, pc, failure);
        self.checker
            .all_flow(LabelRule::Write, e.at, both(pc, &labels), to);
    }

    fn calls(&mut self, call: Use, arguments: &[Expression], pc: &[u16], failure: Option<u16>) {
        let callee = &self.checker.r.methods[usize::from(call.number)];
        self.checker.all_flow(
            LabelRule::Begin,
            call.at,
            pc.iter().copied(),
            callee.begin.number,
        );
        if callee.fails {
            self.checker
                .all_fail(call.at, [callee.begin.number], failure);
        }
        for (argument, parameter) in arguments.iter().zip(&callee.locals) {
            self.given(argument, pc, failure, parameter.label.number);
        }
    }

    /// The labels that flow with what is assigned.
    fn right(&mut self, right: &Right, pc: &[u16], failure: Option<u16>) -> Vec<u16> {
        match right {
            Right::Plain(e) => self.expression(e, pc, failure),
            Right::Call { method, arguments } => {
                self.calls(*method, arguments, pc, failure);
                self.checker.r.methods[usize::from(method.number)]
                    .returns
                    .iter()
                    .map(|x| x.label.number)
                    .collect()
            }
            Right::New {
                class,
                store,
                arguments,
                at,
                ..
            } => {
                self.checker.placed(*at, store.number, class.number);
                let class = &self.checker.r.classes[usize::from(class.number)];
                self.checker.all_flow(
                    LabelRule::Write,
                    *at,
                    pc.iter().copied(),
                    class.label.number,
                );
                self.checker
                    .all_hidden(*at, pc.iter().copied(), class.access.number);
                for argument in arguments {
                    self.given(argument, pc, failure, class.label.number);
                }
                Vec::new()
            }
            Right::Downgrade {
                downgrade,
                value,
                from,
                to,
                at,
                ..
            } => {
                let labels = self.expression(value, pc, failure);
                self.checker
                    .all_flow(LabelRule::Write, *at, labels, from.number);
                self.checker.downgraded(
                    *downgrade,
                    *at,
                    from.number,
                    to.number,
                    &self.method.authority,
                );
                vec![to.number]
            }
        }
    }

    fn block(&mut self, block: &[Statement], pc: &[u16], failure: Option<u16>) {
        for statement in block {
            self.statement(statement, pc, failure);
        }
    }

    fn statement(&mut self, statement: &Statement, pc: &[u16], failure: Option<u16>) {
        match statement {
            Statement::Assign { local, right, at } => {
                let labels = self.right(right, pc, failure);
                let to = self.label_of(*local);
                self.checker
                    .all_flow(LabelRule::Write, *at, both(pc, &labels), to);
            }
            Statement::Write { object, value, .. } => {
                let mut labels = self.expression(value, pc, failure);
                self.reaches(*object, pc, failure);
                if let Some(class) = self.class_behind(*object) {
                    labels.insert(0, self.label_of(object.number));
                    self.checker.all_flow(
                        LabelRule::Write,
                        object.at,
                        both(pc, &labels),
                        class.label.number,
                    );
                }
            }
            Statement::Call { method, arguments } => self.calls(*method, arguments, pc, failure),
            Statement::If {
                condition,
                block,
                otherwise,
            } => {
                let inside = under(pc, &self.expression(condition, pc, failure));
                self.block(block, &inside, failure);
                self.block(otherwise, &inside, failure);
            }
            Statement::While { condition, block } => {
                let inside = under(pc, &self.expression(condition, pc, failure));
                self.block(block, &inside, failure);
            }
            Statement::Atomic {
                label,
                block,
                otherwise,
                at,
            } => {
                self.checker
                    .all_flow(LabelRule::Atomic, *at, pc.iter().copied(), label.number);
                let inside = under(pc, &[label.number]);
                self.block(block, &inside, Some(label.number));
                self.block(otherwise, &inside, failure);
            }
            Statement::Fail { at } => self.checker.all_fail(*at, pc.iter().copied(), failure),
        }
    }
}
