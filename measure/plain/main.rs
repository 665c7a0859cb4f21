//! Reads a bundle from standard input, and checks it or evaluates its requests: `plain check` or `plain eval`.
mod evaluation;
mod heap;
mod labels;
mod lexer;
mod limits;
mod lines;
mod naming;
mod parser;
mod refusal;
// (what runs by nodes would read isn't read here)
#[allow(dead_code)]
mod resolved;
mod scope;
mod tree;
mod values;

use refusal::Refusal;
use std::io::{self, Read, Write};
use std::process::ExitCode;

const MOST_BYTES: usize = 4_194_304;

/// The text that is replied to a bundle.
fn reply(command: &str, bytes: &[u8]) -> Result<Vec<u8>, Refusal> {
    if bytes.len() > MOST_BYTES {
        return Err(Refusal::Limit("bytes"));
    }
    let tokens = lexer::tokens(bytes)?;
    let start = parser::start(&tokens, bytes.len() as u32)?;
    drop(tokens);
    let resolved = naming::resolved(start)?;
    labels::check(&resolved)?;
    Ok(match command {
        "check" => b"ok\n".to_vec(),
        _ => evaluation::evaluate(&resolved),
    })
}

fn main() -> ExitCode {
    let command = std::env::args().nth(1).unwrap_or_default();
    if !matches!(command.as_str(), "check" | "eval") {
        println!("usage");
        return ExitCode::from(1);
    }
    let mut bytes = Vec::new();
    if io::stdin()
        .lock()
        .take(MOST_BYTES as u64 + 1)
        .read_to_end(&mut bytes)
        .is_err()
    {
        return ExitCode::from(2);
    }
    let (text, status) = match reply(&command, &bytes) {
        Ok(text) => (text, 0),
        Err(refusal) => (refusal.to_string().into_bytes(), refusal.status()),
    };
    let mut out = io::stdout().lock();
    match out.write_all(&text).and_then(|()| out.flush()) {
        Ok(()) => ExitCode::from(status),
        Err(_) => ExitCode::from(3),
    }
}
