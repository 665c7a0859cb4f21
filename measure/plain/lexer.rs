//! From bytes to tokens.
use crate::refusal::Refusal;

/// A sign or a keyword.
#[derive(Clone, Copy, Debug, PartialEq, Eq)]
#[rustfmt::skip]
pub enum Mark {
    Arrow, BackArrow, EqualEqual, NotEqual, LessEqual, GreaterEqual, Less, Greater, Equal, Plus, Minus, Star, Slash, Bang, And, Bar,
    LeftParen, RightParen, LeftBrace, RightBrace, Comma, Semicolon, Colon, Dot, At,
    Access, ActsFor, After, Atomic, Authority, Begin, Cache, Class, Crash, CrashIn, Declassify, Deliver, Else, Endorse, Fail, Fails,
    Hostile, Idle, If, Int, Keep, Label, Method, New, Null, Post, Principal, Recover, Resume, Return, Returns, Root, Run, Schedule,
    Session, Store, To, While, Worker,
}

#[derive(Clone, Debug, PartialEq, Eq)]
pub enum Kind<'a> {
    Fixed(Mark),
    Name(&'a str),
    Number(u32),
    /// The digits of the least number, which stand behind a minus sign alone.
    Least,
    Bytes(Vec<u8>),
}

#[derive(Clone, Debug)]
pub struct Token<'a> {
    pub kind: Kind<'a>,
    pub at: u32,
}

fn keyword(word: &str) -> Option<Mark> {
    Some(match word {
        "access" => Mark::Access,
        "actsfor" => Mark::ActsFor,
        "after" => Mark::After,
        "atomic" => Mark::Atomic,
        "authority" => Mark::Authority,
        "begin" => Mark::Begin,
        "cache" => Mark::Cache,
        "class" => Mark::Class,
        "crash" => Mark::Crash,
        "crashin" => Mark::CrashIn,
        "declassify" => Mark::Declassify,
        "deliver" => Mark::Deliver,
        "else" => Mark::Else,
        "endorse" => Mark::Endorse,
        "fail" => Mark::Fail,
        "fails" => Mark::Fails,
        "hostile" => Mark::Hostile,
        "idle" => Mark::Idle,
        "if" => Mark::If,
        "int" => Mark::Int,
        "keep" => Mark::Keep,
        "label" => Mark::Label,
        "method" => Mark::Method,
        "new" => Mark::New,
        "null" => Mark::Null,
        "post" => Mark::Post,
        "principal" => Mark::Principal,
        "recover" => Mark::Recover,
        "resume" => Mark::Resume,
        "return" => Mark::Return,
        "returns" => Mark::Returns,
        "root" => Mark::Root,
        "run" => Mark::Run,
        "schedule" => Mark::Schedule,
        "session" => Mark::Session,
        "store" => Mark::Store,
        "to" => Mark::To,
        "while" => Mark::While,
        "worker" => Mark::Worker,
        _ => return None,
    })
}

/// The longest sign at the front, and how long it is.
fn sign(bytes: &[u8]) -> Option<(Mark, usize)> {
    let long = match bytes {
        [b'-', b'>', ..] => Some(Mark::Arrow),
        [b'<', b'-', ..] => Some(Mark::BackArrow),
        [b'=', b'=', ..] => Some(Mark::EqualEqual),
        [b'!', b'=', ..] => Some(Mark::NotEqual),
        [b'<', b'=', ..] => Some(Mark::LessEqual),
        [b'>', b'=', ..] => Some(Mark::GreaterEqual),
        _ => None,
    };
    if let Some(mark) = long {
        return Some((mark, 2));
    }
    let mark = match bytes.first()? {
        b'<' => Mark::Less,
        b'>' => Mark::Greater,
        b'=' => Mark::Equal,
        b'+' => Mark::Plus,
        b'-' => Mark::Minus,
        b'*' => Mark::Star,
        b'/' => Mark::Slash,
        b'!' => Mark::Bang,
        b'&' => Mark::And,
        b'|' => Mark::Bar,
        b'(' => Mark::LeftParen,
        b')' => Mark::RightParen,
        b'{' => Mark::LeftBrace,
        b'}' => Mark::RightBrace,
        b',' => Mark::Comma,
        b';' => Mark::Semicolon,
        b':' => Mark::Colon,
        b'.' => Mark::Dot,
        b'@' => Mark::At,
        _ => return None,
    };
    Some((mark, 1))
}

/// What a word is: a keyword, a name or a number, or nothing.
fn word_kind(word: &str) -> Option<Kind<'_>> {
    if !word.as_bytes()[0].is_ascii_digit() {
        return match keyword(word) {
            Some(mark) => Some(Kind::Fixed(mark)),
            None if word.len() <= 64 => Some(Kind::Name(word)),
            None => None,
        };
    }
    if word.len() > 1 && word.starts_with('0') {
        return None;
    }
    match word.parse::<u32>() {
        Ok(n) if n <= 2_147_483_647 => Some(Kind::Number(n)),
        Ok(2_147_483_648) => Some(Kind::Least),
        _ => None,
    }
}

fn hex_value(digit: u8) -> Option<u8> {
    match digit {
        b'0'..=b'9' => Some(digit - b'0'),
        b'a'..=b'f' => Some(digit - b'a' + 10),
        _ => None,
    }
}

/// The bytes behind a quotation mark and how many bytes of the text they take, or after how many it doesn't fit.
fn quoted(bytes: &[u8]) -> Result<(Vec<u8>, usize), usize> {
    let digits: Vec<u8> = bytes.iter().map_while(|byte| hex_value(*byte)).collect();
    if digits.len() % 2 == 0 && bytes.get(digits.len()) == Some(&b'"') {
        let values = digits
            .chunks(2)
            .map(|pair| 16 * pair[0] + pair[1])
            .collect();
        Ok((values, digits.len() + 2))
    } else {
        Err(digits.len() + 1)
    }
}

pub fn tokens(bytes: &[u8]) -> Result<Vec<Token<'_>>, Refusal> {
    let mut found = Vec::new();
    let mut at = 0;
    while let Some(&byte) = bytes.get(at) {
        let refused = |behind: usize| Refusal::Syntax {
            at: (at + behind) as u32,
        };
        let rest = &bytes[at..];
        let (kind, len) = match byte {
            b' ' | b'\t' | b'\n' | b'\r' => {
                at += 1;
                continue;
            }
            b'/' if rest.starts_with(b"//") => {
                at += rest.iter().take_while(|byte| **byte != b'\n').count();
                continue;
            }
            b'"' => {
                let (values, len) = quoted(&rest[1..]).map_err(refused)?;
                (Kind::Bytes(values), len)
            }
            b'_' | b'0'..=b'9' | b'a'..=b'z' | b'A'..=b'Z' => {
                let len = rest
                    .iter()
                    .take_while(|byte| byte.is_ascii_alphanumeric() || **byte == b'_')
                    .count();
                let word = std::str::from_utf8(&rest[..len]).map_err(|_| refused(0))?;
                (word_kind(word).ok_or_else(|| refused(0))?, len)
            }
            _ => {
                let (mark, len) = sign(rest).ok_or_else(|| refused(0))?;
                (Kind::Fixed(mark), len)
            }
        };
        found.push(Token {
            kind,
            at: at as u32,
        });
        at += len;
    }
    Ok(found)
}
