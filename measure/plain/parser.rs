//! From tokens to a bundle, by recursive descent.
use crate::lexer::{Kind, Mark, Token};
use crate::limits::{self, Counts};
use crate::refusal::Refusal;
use crate::tree::*;

/// How many brackets may be open at once.
const DEPTH: u32 = 64;

struct Parser<'t, 'a> {
    tokens: &'t [Token<'a>],
    next: usize,
    end: u32,
    open: u32,
    counts: Counts,
}

type Parsed<T> = Result<T, Refusal>;

/// The bundle that these tokens stand for, if it passes no limit.
pub fn start<'a>(tokens: &[Token<'a>], end: u32) -> Parsed<Start<'a>> {
    let mut parser = Parser {
        tokens,
        next: 0,
        end,
        open: 0,
        counts: Counts::default(),
    };
    let start = parser.start()?;
    if parser.next < tokens.len() {
        return Err(parser.unexpected());
    }
    limits::check(&start, &parser.counts)?;
    Ok(start)
}

impl<'a> Parser<'_, 'a> {
    fn unexpected(&self) -> Refusal {
        Refusal::Syntax { at: self.place() }
    }

    fn place(&self) -> u32 {
        self.tokens
            .get(self.next)
            .map_or(self.end, |token| token.at)
    }

    fn kind(&self) -> Option<&Kind<'a>> {
        self.tokens.get(self.next).map(|token| &token.kind)
    }

    fn mark(&self) -> Option<Mark> {
        match self.kind() {
            Some(Kind::Fixed(mark)) => Some(*mark),
            _ => None,
        }
    }

    fn comes(&self, mark: Mark) -> bool {
        self.mark() == Some(mark)
    }

    fn name_comes(&self) -> bool {
        matches!(self.kind(), Some(Kind::Name(_)))
    }

    /// Takes this mark if it comes next.
    fn take(&mut self, mark: Mark) -> bool {
        let comes = self.comes(mark);
        if comes {
            self.next += 1;
        }
        comes
    }

    fn expect(&mut self, mark: Mark) -> Parsed<()> {
        if self.take(mark) {
            Ok(())
        } else {
            Err(self.unexpected())
        }
    }

    fn open(&mut self, mark: Mark) -> Parsed<()> {
        self.expect(mark)?;
        if self.open == DEPTH {
            return Err(Refusal::Limit("depth"));
        }
        self.open += 1;
        Ok(())
    }

    fn close(&mut self, mark: Mark) -> Parsed<()> {
        self.expect(mark)?;
        self.open -= 1;
        Ok(())
    }

    fn name(&mut self) -> Parsed<Name<'a>> {
        match self.tokens.get(self.next) {
            Some(Token {
                kind: Kind::Name(letters),
                at,
            }) => {
                self.next += 1;
                Ok(Name {
                    text: text(letters),
                    at: *at,
                })
            }
            _ => Err(self.unexpected()),
        }
    }

    fn number(&mut self) -> Parsed<u32> {
        match self.kind() {
            Some(Kind::Number(n)) => {
                let n = *n;
                self.next += 1;
                Ok(n)
            }
            _ => Err(self.unexpected()),
        }
    }

    /// None or more items with a mark between them, up to the mark that ends them.
    fn separated<T>(
        &mut self,
        between: Mark,
        end: Mark,
        mut item: impl FnMut(&mut Self) -> Parsed<T>,
    ) -> Parsed<Vec<T>> {
        let mut items = Vec::new();
        if self.comes(end) {
            return Ok(items);
        }
        items.push(item(self)?);
        while self.take(between) {
            items.push(item(self)?);
        }
        Ok(items)
    }

    fn bracketed<T>(&mut self, item: impl FnMut(&mut Self) -> Parsed<T>) -> Parsed<Vec<T>> {
        self.open(Mark::LeftParen)?;
        let items = self.separated(Mark::Comma, Mark::RightParen, item)?;
        self.close(Mark::RightParen)?;
        Ok(items)
    }

    fn repeated<T>(
        &mut self,
        begins: impl Fn(&Self) -> bool,
        mut item: impl FnMut(&mut Self) -> Parsed<T>,
    ) -> Parsed<Vec<T>> {
        let mut items = Vec::new();
        while begins(self) {
            items.push(item(self)?);
        }
        Ok(items)
    }

    // ---- declarations

    fn start(&mut self) -> Parsed<Start<'a>> {
        let program = Program {
            nodes: self.repeated(
                |it| {
                    matches!(
                        it.mark(),
                        Some(Mark::Principal | Mark::Hostile | Mark::Worker | Mark::Store)
                    )
                },
                Self::node,
            )?,
            delegations: self.repeated(Self::name_comes, Self::delegation)?,
            labels: self.repeated(|it| it.comes(Mark::Label), Self::label)?,
            classes: self.repeated(|it| it.comes(Mark::Class), Self::class)?,
            methods: self.repeated(|it| it.comes(Mark::Method), Self::method)?,
        };
        self.expect(Mark::Run)?;
        self.open(Mark::LeftBrace)?;
        let roots = self.repeated(|it| it.comes(Mark::Root), Self::root)?;
        let sessions = self.repeated(|it| it.comes(Mark::Session), Self::session)?;
        let posts = self.repeated(|it| it.comes(Mark::Post), Self::post)?;
        let crashes = self.repeated(|it| it.comes(Mark::Crash), Self::crash)?;
        let cache = self.cache()?;
        let schedule = self.schedule()?;
        self.close(Mark::RightBrace)?;
        Ok(Start {
            program,
            roots,
            sessions,
            posts,
            crashes,
            cache,
            schedule,
        })
    }

    fn node(&mut self) -> Parsed<Node<'a>> {
        let role = if self.take(Mark::Principal) {
            Role::Principal
        } else {
            let hostile = self.take(Mark::Hostile);
            if self.take(Mark::Worker) {
                Role::Worker { hostile }
            } else {
                self.expect(Mark::Store)?;
                Role::Store { hostile }
            }
        };
        let name = self.name()?;
        self.expect(Mark::Semicolon)?;
        Ok(Node { role, name })
    }

    fn delegation(&mut self) -> Parsed<Delegation<'a>> {
        let actor = self.name()?;
        self.expect(Mark::ActsFor)?;
        let principal = self.name()?;
        self.expect(Mark::Semicolon)?;
        Ok(Delegation { actor, principal })
    }

    fn policy(&mut self) -> Parsed<PolicyText<'a>> {
        let owner = self.name()?;
        let aspect = if self.take(Mark::Arrow) {
            Aspect::Confidentiality
        } else {
            self.expect(Mark::BackArrow)?;
            Aspect::Integrity
        };
        let others = if self.name_comes() {
            self.separated(Mark::Comma, Mark::Semicolon, Self::name)?
        } else {
            Vec::new()
        };
        Ok(PolicyText {
            owner,
            aspect,
            others,
        })
    }

    fn label(&mut self) -> Parsed<LabelText<'a>> {
        self.expect(Mark::Label)?;
        let name = self.name()?;
        self.expect(Mark::Equal)?;
        self.open(Mark::LeftBrace)?;
        let policies = self.separated(Mark::Semicolon, Mark::RightBrace, Self::policy)?;
        self.close(Mark::RightBrace)?;
        self.expect(Mark::Semicolon)?;
        Ok(LabelText { name, policies })
    }

    fn sort(&mut self) -> Parsed<Sort<'a>> {
        if self.take(Mark::Int) {
            Ok(Sort::Int)
        } else {
            self.name().map(Sort::Class)
        }
    }

    fn class(&mut self) -> Parsed<Class<'a>> {
        self.expect(Mark::Class)?;
        let name = self.name()?;
        self.expect(Mark::Label)?;
        let label = self.name()?;
        self.expect(Mark::Access)?;
        let access = self.name()?;
        self.open(Mark::LeftBrace)?;
        let fields = self.repeated(|it| it.comes(Mark::Int) || it.name_comes(), Self::field)?;
        self.close(Mark::RightBrace)?;
        Ok(Class {
            name,
            label,
            access,
            fields,
        })
    }

    fn field(&mut self) -> Parsed<Field<'a>> {
        let sort = self.sort()?;
        let name = self.name()?;
        self.expect(Mark::Semicolon)?;
        Ok(Field { sort, name })
    }

    // ---- methods

    fn parameter(&mut self) -> Parsed<Parameter<'a>> {
        let sort = self.sort()?;
        let name = self.name()?;
        self.expect(Mark::Colon)?;
        let label = self.name()?;
        Ok(Parameter { sort, name, label })
    }

    fn method(&mut self) -> Parsed<Method<'a>> {
        self.expect(Mark::Method)?;
        let name = self.name()?;
        let parameters = self.bracketed(Self::parameter)?;
        let returns = if self.take(Mark::Returns) {
            let sort = self.sort()?;
            self.expect(Mark::Colon)?;
            Some(Returns {
                sort,
                label: self.name()?,
            })
        } else {
            None
        };
        self.expect(Mark::Begin)?;
        let begin = self.name()?;
        let fails = self.take(Mark::Fails);
        let mut authority = Vec::new();
        if self.take(Mark::Authority) {
            authority.push(self.name()?);
            while self.take(Mark::Comma) {
                authority.push(self.name()?);
            }
        }
        self.counts.declared = 0;
        self.open(Mark::LeftBrace)?;
        let body = self.repeated(Self::statement_comes, Self::statement)?;
        let at = self.place();
        let result = if self.take(Mark::Return) {
            let value = self.expression()?;
            self.expect(Mark::Semicolon)?;
            Some(Return { value, at })
        } else {
            None
        };
        self.close(Mark::RightBrace)?;
        self.counts.locals = self
            .counts
            .locals
            .max(parameters.len() + self.counts.declared);
        Ok(Method {
            name,
            parameters,
            returns,
            begin,
            fails,
            authority,
            body,
            result,
        })
    }

    fn statement_comes(&self) -> bool {
        self.name_comes()
            || matches!(
                self.mark(),
                Some(Mark::Int | Mark::If | Mark::While | Mark::Atomic | Mark::Fail)
            )
    }

    fn block(&mut self) -> Parsed<Vec<Statement<'a>>> {
        self.open(Mark::LeftBrace)?;
        let statements = self.repeated(Self::statement_comes, Self::statement)?;
        self.close(Mark::RightBrace)?;
        Ok(statements)
    }

    fn condition(&mut self) -> Parsed<Expression<'a>> {
        self.open(Mark::LeftParen)?;
        let condition = self.expression()?;
        self.close(Mark::RightParen)?;
        Ok(condition)
    }

    fn statement(&mut self) -> Parsed<Statement<'a>> {
        let at = self.place();
        match self.mark() {
            Some(Mark::Int) => self.declaration(),
            Some(Mark::If) => {
                self.next += 1;
                let condition = self.condition()?;
                let block = self.block()?;
                let otherwise = if self.take(Mark::Else) {
                    self.block()?
                } else {
                    Vec::new()
                };
                Ok(Statement::If {
                    condition,
                    block,
                    otherwise,
                })
            }
            Some(Mark::While) => {
                self.next += 1;
                let condition = self.condition()?;
                Ok(Statement::While {
                    condition,
                    block: self.block()?,
                })
            }
            Some(Mark::Atomic) => {
                self.next += 1;
                let label = self.name()?;
                let block = self.block()?;
                self.expect(Mark::Else)?;
                let otherwise = self.block()?;
                Ok(Statement::Atomic {
                    label,
                    block,
                    otherwise,
                    at,
                })
            }
            Some(Mark::Fail) => {
                self.next += 1;
                self.expect(Mark::Semicolon)?;
                Ok(Statement::Fail { at })
            }
            _ => self.named_statement(),
        }
    }

    fn declaration(&mut self) -> Parsed<Statement<'a>> {
        let at = self.place();
        let sort = self.sort()?;
        let name = self.name()?;
        self.expect(Mark::Colon)?;
        let label = self.name()?;
        self.expect(Mark::Equal)?;
        let value = self.expression()?;
        self.expect(Mark::Semicolon)?;
        self.counts.declared += 1;
        Ok(Statement::Declare {
            sort,
            name,
            label,
            value,
            at,
        })
    }

    /// A statement that begins with a name.
    fn named_statement(&mut self) -> Parsed<Statement<'a>> {
        if matches!(
            self.tokens.get(self.next + 1),
            Some(Token {
                kind: Kind::Name(_),
                ..
            })
        ) {
            return self.declaration();
        }
        let name = self.name()?;
        let statement = if self.take(Mark::Equal) {
            Statement::Assign {
                name,
                right: self.right()?,
            }
        } else if self.take(Mark::Dot) {
            self.counts.sites += 1;
            let field = self.name()?;
            self.expect(Mark::Equal)?;
            Statement::Write {
                object: name,
                field,
                value: self.expression()?,
            }
        } else {
            Statement::Call {
                method: name,
                arguments: self.bracketed(Self::expression)?,
            }
        };
        self.expect(Mark::Semicolon)?;
        Ok(statement)
    }

    fn right(&mut self) -> Parsed<Right<'a>> {
        let at = self.place();
        let downgrade = match self.mark() {
            Some(Mark::New) => {
                self.next += 1;
                self.counts.sites += 1;
                let class = self.name()?;
                self.expect(Mark::At)?;
                let store = self.name()?;
                return Ok(Right::New {
                    class,
                    store,
                    arguments: self.bracketed(Self::expression)?,
                    at,
                });
            }
            Some(Mark::Declassify) => Downgrade::Declassify,
            Some(Mark::Endorse) => Downgrade::Endorse,
            _ => {
                let calls = matches!(
                    self.tokens.get(self.next + 1),
                    Some(Token {
                        kind: Kind::Fixed(Mark::LeftParen),
                        ..
                    })
                );
                if self.name_comes() && calls {
                    let method = self.name()?;
                    return Ok(Right::Call {
                        method,
                        arguments: self.bracketed(Self::expression)?,
                    });
                }
                return self.expression().map(Right::Plain);
            }
        };
        self.next += 1;
        self.counts.sites += 1;
        self.open(Mark::LeftParen)?;
        let value = self.expression()?;
        self.expect(Mark::Comma)?;
        let from = self.name()?;
        self.expect(Mark::To)?;
        let to = self.name()?;
        self.close(Mark::RightParen)?;
        Ok(Right::Downgrade {
            downgrade,
            value,
            from,
            to,
            at,
        })
    }

    // ---- expressions

    fn expression(&mut self) -> Parsed<Expression<'a>> {
        self.chain(
            |mark| (mark == Mark::Bar).then_some(Operator::Or),
            Self::conjunction,
        )
    }

    fn conjunction(&mut self) -> Parsed<Expression<'a>> {
        self.chain(
            |mark| (mark == Mark::And).then_some(Operator::And),
            Self::comparison,
        )
    }

    fn comparison(&mut self) -> Parsed<Expression<'a>> {
        let left = self.sum()?;
        let comparison = match self.mark() {
            Some(Mark::EqualEqual) => Comparison::Equal,
            Some(Mark::NotEqual) => Comparison::NotEqual,
            Some(Mark::Less) => Comparison::Less,
            Some(Mark::LessEqual) => Comparison::LessEqual,
            Some(Mark::Greater) => Comparison::Greater,
            Some(Mark::GreaterEqual) => Comparison::GreaterEqual,
            _ => return Ok(left),
        };
        self.next += 1;
        let right = self.sum()?;
        let at = left.at;
        Ok(Expression {
            form: Form::Compared {
                left: Box::new(left),
                comparison,
                right: Box::new(right),
            },
            at,
        })
    }

    fn sum(&mut self) -> Parsed<Expression<'a>> {
        let operator = |mark| match mark {
            Mark::Plus => Some(Operator::Add),
            Mark::Minus => Some(Operator::Subtract),
            _ => None,
        };
        self.chain(operator, Self::product)
    }

    fn product(&mut self) -> Parsed<Expression<'a>> {
        let operator = |mark| match mark {
            Mark::Star => Some(Operator::Multiply),
            Mark::Slash => Some(Operator::Divide),
            _ => None,
        };
        self.chain(operator, Self::unary)
    }

    /// An operand, and further ones with operators of its level between them.
    fn chain(
        &mut self,
        operator: impl Fn(Mark) -> Option<Operator>,
        operand: impl Fn(&mut Self) -> Parsed<Expression<'a>>,
    ) -> Parsed<Expression<'a>> {
        let first = operand(self)?;
        let mut others = Vec::new();
        while let Some(operator) = self.mark().and_then(&operator) {
            let at = self.place();
            self.next += 1;
            others.push(Operand {
                operator,
                at,
                operand: operand(self)?,
            });
        }
        if others.is_empty() {
            return Ok(first);
        }
        let at = first.at;
        Ok(Expression {
            form: Form::Chain {
                first: Box::new(first),
                others,
            },
            at,
        })
    }

    fn unary(&mut self) -> Parsed<Expression<'a>> {
        let at = self.place();
        let operator = match self.mark() {
            Some(Mark::Minus) => UnaryOperator::Negative,
            Some(Mark::Bang) => UnaryOperator::Not,
            _ => return self.primary(),
        };
        self.next += 1;
        if operator == UnaryOperator::Negative && self.kind() == Some(&Kind::Least) {
            self.next += 1;
            return Ok(Expression {
                form: Form::Number(i32::MIN),
                at,
            });
        }
        let operand = Box::new(self.primary()?);
        Ok(Expression {
            form: Form::Unary { operator, operand },
            at,
        })
    }

    fn primary(&mut self) -> Parsed<Expression<'a>> {
        let at = self.place();
        let form = match self.kind() {
            Some(Kind::Number(n)) => {
                let n = *n as i32;
                self.next += 1;
                Form::Number(n)
            }
            Some(Kind::Fixed(Mark::Null)) => {
                self.next += 1;
                Form::Null
            }
            Some(Kind::Fixed(Mark::LeftParen)) => {
                self.open(Mark::LeftParen)?;
                let inner = self.expression()?;
                self.close(Mark::RightParen)?;
                inner.form
            }
            _ => {
                let name = self.name()?;
                if self.take(Mark::Dot) {
                    self.counts.sites += 1;
                    Form::Read {
                        object: name,
                        field: self.name()?,
                    }
                } else {
                    Form::Local(name)
                }
            }
        };
        Ok(Expression { form, at })
    }

    // ---- runs

    fn given(&mut self) -> Parsed<Given<'a>> {
        let at = self.place();
        let literal = match self.kind() {
            Some(Kind::Number(_)) => Literal::Number(self.number()? as i32),
            Some(Kind::Fixed(Mark::Null)) => {
                self.next += 1;
                Literal::Null
            }
            Some(Kind::Fixed(Mark::Minus)) => {
                self.next += 1;
                if self.kind() == Some(&Kind::Least) {
                    self.next += 1;
                    Literal::Number(i32::MIN)
                } else {
                    Literal::Number(-(self.number()? as i32))
                }
            }
            _ => Literal::Root(self.name()?),
        };
        Ok(Given { literal, at })
    }

    fn root(&mut self) -> Parsed<Root<'a>> {
        self.expect(Mark::Root)?;
        let name = self.name()?;
        self.expect(Mark::Colon)?;
        let class = self.name()?;
        self.expect(Mark::At)?;
        let store = self.name()?;
        let values = self.bracketed(Self::given)?;
        self.expect(Mark::Semicolon)?;
        Ok(Root {
            name,
            class,
            store,
            values,
        })
    }

    fn session(&mut self) -> Parsed<Session<'a>> {
        self.expect(Mark::Session)?;
        let worker = self.name()?;
        self.open(Mark::LeftBrace)?;
        let requests = self.repeated(Self::name_comes, Self::request)?;
        self.close(Mark::RightBrace)?;
        Ok(Session { worker, requests })
    }

    fn request(&mut self) -> Parsed<Request<'a>> {
        let method = self.name()?;
        let arguments = self.bracketed(Self::given)?;
        self.expect(Mark::Semicolon)?;
        Ok(Request { method, arguments })
    }

    fn post(&mut self) -> Parsed<Post<'a>> {
        self.expect(Mark::Post)?;
        let sender = self.name()?;
        self.expect(Mark::Arrow)?;
        let receiver = self.name()?;
        let bytes = match self.kind() {
            Some(Kind::Bytes(bytes)) => bytes.clone(),
            _ => return Err(self.unexpected()),
        };
        self.next += 1;
        self.expect(Mark::Semicolon)?;
        Ok(Post {
            sender,
            receiver,
            bytes,
        })
    }

    fn crash(&mut self) -> Parsed<Crash<'a>> {
        self.expect(Mark::Crash)?;
        let node = self.name()?;
        self.expect(Mark::After)?;
        let after = self.number()?;
        let keep = if self.take(Mark::Keep) {
            Some(self.number()?)
        } else {
            None
        };
        self.expect(Mark::Semicolon)?;
        Ok(Crash { node, after, keep })
    }

    fn cache(&mut self) -> Parsed<u32> {
        if !self.take(Mark::Cache) {
            return Ok(0);
        }
        let count = self.number()?;
        self.expect(Mark::Semicolon)?;
        Ok(count)
    }

    fn schedule(&mut self) -> Parsed<Vec<Event<'a>>> {
        if !self.take(Mark::Schedule) {
            return Ok(Vec::new());
        }
        self.open(Mark::LeftBrace)?;
        let events = self.repeated(|it| !it.comes(Mark::RightBrace), Self::event)?;
        self.close(Mark::RightBrace)?;
        Ok(events)
    }

    fn event(&mut self) -> Parsed<Event<'a>> {
        let event = if self.take(Mark::CrashIn) {
            Event::CrashIn {
                keep: self.number()?,
                step: self.step()?,
            }
        } else if self.take(Mark::Post) {
            Event::Post(self.name()?)
        } else if self.take(Mark::Crash) {
            Event::Crash(self.name()?)
        } else {
            Event::Step(self.step()?)
        };
        self.expect(Mark::Semicolon)?;
        Ok(event)
    }

    fn step(&mut self) -> Parsed<Step<'a>> {
        if self.take(Mark::Begin) {
            Ok(Step::Begin(self.name()?))
        } else if self.take(Mark::Resume) {
            Ok(Step::Resume(self.name()?))
        } else if self.take(Mark::Deliver) {
            Ok(Step::Deliver {
                sender: self.name()?,
                receiver: self.name()?,
            })
        } else if self.take(Mark::Idle) {
            Ok(Step::Idle {
                worker: self.name()?,
                node: self.name()?,
            })
        } else {
            self.expect(Mark::Recover)?;
            Ok(Step::Recover(self.name()?))
        }
    }
}
