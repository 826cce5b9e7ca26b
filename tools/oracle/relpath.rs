//! The program `relpath` as ordinary Rust over the crate. The commands that the crate has no call for
//! are unknown to it, and it never answers that memory was refused: Rust ends it there.

use relative_path::{PathExt, RelativePath, RelativePathBuf};
use std::borrow::Cow;
use std::io::{self, Read, Write};
use std::path::Path;

const MAX_INPUT: usize = 65_536;

/// Why `run` ends without an answer.
#[derive(Debug)]
pub enum Fault {
    Read,
    InputTooLong,
    NotText,
    Write,
}

/// Answers standard input, line by line, once all of it was read.
pub fn run() -> Result<(), Fault> {
    let input = read_input(io::stdin().lock())?;
    let text = std::str::from_utf8(&input).map_err(|_| Fault::NotText)?;
    let mut answers = String::new();
    for line in text.split_terminator('\n') {
        add_answer(line, &mut answers);
    }
    let mut output = io::stdout().lock();
    output
        .write_all(answers.as_bytes())
        .and_then(|()| output.flush())
        .map_err(|_| Fault::Write)
}

fn read_input(mut input: impl Read) -> Result<Vec<u8>, Fault> {
    let mut bytes = vec![0; MAX_INPUT + 1];
    let mut len = 0;
    while len <= MAX_INPUT {
        match input.read(&mut bytes[len..]) {
            Ok(0) => {
                bytes.truncate(len);
                return Ok(bytes);
            }
            Ok(taken) => len += taken,
            Err(_) => return Err(Fault::Read),
        }
    }
    Err(Fault::InputTooLong)
}

fn add_answer(line: &str, answers: &mut String) {
    let (mark, text) = match answer(line) {
        Ok(path) => ("= ", Cow::Owned(path.into_string())),
        Err(words) => ("! ", words),
    };
    for part in [mark, &text, "\n"] {
        answers.push_str(part);
    }
}

fn answer(line: &str) -> Result<RelativePathBuf, Cow<'static, str>> {
    let mut fields = line.split('\t');
    let command = fields.next().unwrap_or_default();
    match (command, fields.next(), fields.next(), fields.next()) {
        ("normalize", Some(path), None, _) => Ok(RelativePath::new(path).normalize()),
        ("join", Some(path), Some(other), None) => Ok(RelativePath::new(path).join(other)),
        ("relative", Some(from), Some(to), None) => Ok(RelativePath::new(from).relative(to)),
        ("relative_to", Some(path), Some(root), None) => {
            let way = Path::new(path).relative_to(root);
            way.map_err(|error| Cow::Owned(error.to_string()))
        }
        ("normalize" | "join" | "relative" | "relative_to", ..) => {
            Err(Cow::Borrowed("wrong number of fields"))
        }
        _ => Err(Cow::Borrowed("unknown command")),
    }
}
