//! A line for each call of the crate that this repository carries.

use relative_path::{Component, Components, PathExt, RelativePath, RelativePathBuf};
use std::fmt::Display;
use std::io::{self, BufWriter, Write};
use std::path::Path;

/// What stands after `= `, or after `! `.
type Answer = Result<String, String>;

/// A call, by the arguments that it takes.
enum Call {
    One(fn(&str) -> Answer),
    Two(fn(&str, &str) -> Answer),
    OneAndMore(fn(&str, &[&str]) -> Answer),
    Any(fn(&[&str]) -> Answer),
}

/// Answers standard input, line by line.
pub fn run() -> io::Result<()> {
    let questions = io::read_to_string(io::stdin())?;
    let mut output = BufWriter::new(io::stdout().lock());
    for line in questions.split_terminator('\n') {
        match answer(line) {
            Ok(fields) => writeln!(output, "= {fields}")?,
            Err(words) => writeln!(output, "! {words}")?,
        }
    }
    output.flush()
}

fn answer(line: &str) -> Answer {
    let fields: Vec<&str> = line.split('\t').collect();
    let (command, arguments) = fields.split_first().ok_or("unknown command")?;
    match (call(command).ok_or("unknown command")?, arguments) {
        (Call::One(call), [p]) => call(p),
        (Call::Two(call), [p, q]) => call(p, q),
        (Call::OneAndMore(call), [p, more @ ..]) => call(p, more),
        (Call::Any(call), all) => call(all),
        _ => Err("wrong number of fields".to_string()),
    }
}

#[allow(deprecated)] // `display`, which this repository carries
fn call(command: &str) -> Option<Call> {
    use Call::{Any, One, OneAndMore, Two};
    Some(match command {
        "components" => One(|p| list(path(p).components().map(spoken))),
        "components_back" => One(|p| list(path(p).components().rev().map(spoken))),
        "walk" => Two(walk),
        "iter" => One(|p| list(path(p).iter().map(str::to_string))),
        "eq" => Two(|p, q| said(path(p) == path(q))),
        "cmp" => Two(|p, q| said(format!("{:?}", path(p).cmp(path(q))))),
        "display" => One(|p| said(path(p).display())),
        "debug" => One(|p| said(format!("{:?}", path(p)))),
        "width" => Two(width),
        "from_path" => One(|p| told(RelativePath::from_path(p))),
        "from_path_owned" => One(|p| told(RelativePathBuf::from_path(p))),
        "to_path" => Two(|p, base| said(path(p).to_path(base).display())),
        "to_logical_path" => Two(|p, base| said(path(p).to_logical_path(base).display())),
        "relative_to" => Two(|p, root| told(Path::new(p).relative_to(root))),
        "parent" => One(|p| maybe(path(p).parent())),
        "file_name" => One(|p| maybe(path(p).file_name())),
        "file_stem" => One(|p| maybe(path(p).file_stem())),
        "extension" => One(|p| maybe(path(p).extension())),
        "strip_prefix" => Two(|p, q| told(path(p).strip_prefix(q).map_err(|_| "StripPrefixError"))),
        "starts_with" => Two(|p, q| said(path(p).starts_with(q))),
        "ends_with" => Two(|p, q| said(path(p).ends_with(q))),
        "is_normalized" => One(|p| said(path(p).is_normalized())),
        "join" => Two(|p, q| said(path(p).join(q))),
        "with_file_name" => Two(|p, name| said(path(p).with_file_name(name))),
        "with_extension" => Two(|p, extension| said(path(p).with_extension(extension))),
        "join_normalized" => Two(|p, q| said(path(p).join_normalized(q))),
        "normalize" => One(|p| said(path(p).normalize())),
        "relative" => Two(|p, q| said(path(p).relative(q))),
        "push" => Two(|p, q| edited(p, |buf| buf.push(q))),
        "pop" => One(|p| edited_with(p, RelativePathBuf::pop)),
        "set_file_name" => Two(|p, name| edited(p, |buf| buf.set_file_name(name))),
        "set_extension" => Two(|p, q| edited_with(p, |buf| buf.set_extension(q))),
        "extend" => OneAndMore(|p, more| edited(p, |buf| buf.extend(more))),
        "from_paths" => Any(|all| said(RelativePathBuf::from_iter(all))),
        _ => return None,
    })
}

fn path(text: &str) -> &RelativePath {
    RelativePath::new(text)
}

fn said(text: impl Display) -> Answer {
    Ok(text.to_string())
}

fn told(outcome: Result<impl Display, impl Display>) -> Answer {
    outcome
        .map(|text| text.to_string())
        .map_err(|error| error.to_string())
}

fn maybe(text: Option<impl Display>) -> Answer {
    Ok(text.map_or("none".to_string(), |text| format!("some {text}")))
}

fn list(texts: impl Iterator<Item = String>) -> Answer {
    Ok(texts.collect::<Vec<_>>().join("\t"))
}

fn spoken(component: Component<'_>) -> String {
    match component {
        Component::CurDir => "CurDir".to_string(),
        Component::ParentDir => "ParentDir".to_string(),
        Component::Normal(name) => format!("Normal:{name}"),
    }
}

fn walk(p: &str, steps: &str) -> Answer {
    let mut left = path(p).components();
    let took: Result<Vec<String>, String> = steps.chars().map(|end| step(&mut left, end)).collect();
    Ok(took?.join("\t"))
}

/// The component at an end, and the text that is left without it.
fn step(left: &mut Components<'_>, end: char) -> Answer {
    let component = match end {
        'F' => left.next(),
        'B' => left.next_back(),
        _ => return Err("unknown step".to_string()),
    };
    let component = component.map_or("none".to_string(), spoken);
    Ok(format!("{component}\t{}", left.as_relative_path()))
}

fn width(p: &str, columns: &str) -> Answer {
    let columns: u16 = columns.parse().map_err(|_| "not a width")?;
    Ok(format!("{:1$}", path(p), usize::from(columns)))
}

fn edited(text: &str, edit: impl FnOnce(&mut RelativePathBuf)) -> Answer {
    let mut buf = RelativePathBuf::from(text);
    edit(&mut buf);
    said(buf)
}

/// What an edit returned, and the text then.
fn edited_with(text: &str, edit: impl FnOnce(&mut RelativePathBuf) -> bool) -> Answer {
    let mut buf = RelativePathBuf::from(text);
    let returned = edit(&mut buf);
    Ok(format!("{returned}\t{buf}"))
}
