//! The lines of an evaluation.
use crate::evaluation::{End, Outcome};
use crate::heap::{Limit, Object};
use crate::resolved::{Request, Resolved};
use crate::values::{Oid, Value};
use std::io::Write;

/// (writing to a list of bytes doesn't fail)
macro_rules! put {
    ($text:expr, $($words:tt)*) => {{
        let _ = write!($text, $($words)*);
    }};
}

fn node_text<'r>(r: &'r Resolved<'_>, node: u16) -> &'r str {
    r.nodes
        .iter()
        .find(|x| x.node == Some(node))
        .map_or("", |x| &x.name.text)
}

fn put_name(text: &mut Vec<u8>, r: &Resolved<'_>, oid: Oid) {
    match oid.root() {
        Some(number) => put!(text, "{}", r.roots[number as usize].name.text),
        None => put!(text, "#{}", oid.hex()),
    }
}

fn put_value(text: &mut Vec<u8>, r: &Resolved<'_>, value: Value) {
    match value {
        Value::Int(n) => put!(text, "{n}"),
        Value::Null => put!(text, "null"),
        Value::Ref(oid) => put_name(text, r, oid),
    }
}

pub fn put_outcome(text: &mut Vec<u8>, r: &Resolved<'_>, request: &Request, outcome: &Outcome) {
    put!(
        text,
        "outcome {} {} ",
        node_text(r, request.worker),
        request.number
    );
    match outcome {
        Ok(Some(value)) => {
            put!(text, "ended ");
            put_value(text, r, *value);
        }
        Ok(None) => put!(text, "ended none"),
        Err(End::Failed) => put!(text, "failed"),
        Err(End::Stopped(Limit::Fuel)) => put!(text, "stopped fuel"),
        Err(End::Stopped(Limit::Depth)) => put!(text, "stopped depth"),
        Err(End::Stopped(Limit::Reads)) => put!(text, "stopped reads"),
        Err(End::Stopped(Limit::Writes)) => put!(text, "stopped writes"),
    }
    text.push(b'\n');
}

pub fn put_object(text: &mut Vec<u8>, r: &Resolved<'_>, oid: Oid, object: &Object) {
    put!(text, "object {} ", node_text(r, oid.store));
    put_name(text, r, oid);
    put!(text, " {}", r.classes[usize::from(object.class)].name.text);
    for value in &object.fields {
        text.push(b' ');
        put_value(text, r, *value);
    }
    text.push(b'\n');
}
