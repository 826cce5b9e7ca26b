//! Makes a million random calls of the package and of the original crate, and compares what they return. The last line is
//! `N passed, M failed`.
//!
//! Two calls differ by intent: borrowed `from_path` and `relative_to`. There the package has to return what the rule in
//! docs/DIFFERENCES.md says.

#[macro_use]
mod shared;

use std::fmt::Debug;
use std::path::{Component, Path};
use std::process::ExitCode;

use original as theirs;
use relative_path as ours;

use ours::PathExt as _;
use shared::{hash_of, Numbers};

/// How many calls are made.
const CALLS: u64 = 1_000_000;

/// What texts are made of.
const PIECES: [&str; 14] = [
    "a",
    "b",
    "ab",
    "é",
    "a.b",
    ".a",
    "a.",
    "...",
    ".",
    "..",
    "",
    "/",
    "//",
    "\u{1F600}",
];

impl Numbers {
    /// Returns a text of up to nine pieces, mostly with slashes between them.
    fn text(&mut self) -> String {
        let mut text = String::new();
        for place in 0..self.below(10) {
            if place > 0 && self.below(5) > 0 {
                text.push('/');
            }
            text.push_str(PIECES[self.below(PIECES.len())]);
        }
        text
    }

    /// Returns two texts; the second one often begins as the first does.
    fn texts(&mut self) -> (String, String) {
        let (first, second) = (self.text(), self.text());
        let shared = match self.below(3) {
            0 => first.find('/').unwrap_or(first.len()),
            1 => first.rfind('/').unwrap_or(first.len()),
            _ => 0,
        };
        (first.clone(), first[..shared].to_string() + &second)
    }
}

/// The results that were compared.
#[derive(Default)]
struct Tally {
    calls: u64,
    failed: u64,
    by_intent: u64,
}

impl Tally {
    /// Compares two results of a call, as they are printed for a programmer.
    fn compare(&mut self, call: &str, texts: (&str, &str), ours: impl Debug, theirs: impl Debug) {
        self.calls += 1;
        let (ours, theirs) = (format!("{ours:?}"), format!("{theirs:?}"));
        if ours != theirs {
            self.failed += 1;
            println!("{call} of {texts:?}: {ours}, and the original crate returns {theirs}");
        }
    }

    /// Compares a result with a rule, and counts where the original crate differs from it.
    fn compare_with_rule(
        &mut self,
        call: &str,
        texts: (&str, &str),
        [ours, theirs, rule]: [Result<String, String>; 3],
    ) {
        self.by_intent += u64::from(theirs != rule);
        self.compare(call, texts, ours, rule);
    }
}

/// The rule of borrowed `from_path`.
fn viewed(text: &str) -> Result<String, String> {
    if text.starts_with('/') {
        return Err("path contains non-relative component".into());
    }
    Ok(text.into())
}

/// The rule of `relative_to`: drops what both begin with, counts along the rest of the root, and writes as many `..`.
fn way(path: &str, root: &str) -> Result<String, String> {
    if path.starts_with('/') != root.starts_with('/') {
        return Err("paths contain different absolute prefixes".into());
    }
    let path: Vec<Component<'_>> = Path::new(path).components().collect();
    let root: Vec<Component<'_>> = Path::new(root).components().collect();
    let shared = path.iter().zip(&root).take_while(|(a, b)| a == b).count();
    let mut climb = 0_usize;
    for component in &root[shared..] {
        climb = match component {
            Component::CurDir => Some(climb),
            Component::ParentDir => climb.checked_sub(1),
            _ => Some(climb + 1),
        }
        .ok_or("path traversal cannot be determined")?;
    }
    let rest = path[shared..]
        .iter()
        .map(|it| it.as_os_str().to_str().unwrap());
    let pieces: Vec<&str> = (0..climb).map(|_| "..").chain(rest).collect();
    Ok(pieces.join("/"))
}

/// Compares what both sides return.
macro_rules! row {
    (($tally:ident, $text:ident, $other:ident), $name:literal, |$path:ident, $to:ident| $call:expr, |$texts:ident| $timed:expr) => {
        $tally.compare(
            $name,
            ($text, $other),
            {
                #[allow(unused_imports)]
                use ours::{RelativePath, RelativePathBuf};
                let ($path, $to) = (RelativePath::new($text), $other);
                let _ = ($path, $to);
                $call
            },
            {
                #[allow(unused_imports)]
                use theirs::{RelativePath, RelativePathBuf};
                let ($path, $to) = (RelativePath::new($text), $other);
                let _ = ($path, $to);
                $call
            },
        );
    };
}

/// Compares the walks over one path, and the two calls that differ by intent.
fn compare_path(tally: &mut Tally, text: &str, other: &str) {
    let (our, their) = (
        ours::RelativePath::new(text),
        theirs::RelativePath::new(text),
    );
    let texts = (text, other);
    tally.compare(
        "components",
        texts,
        our.components().collect::<Vec<_>>(),
        their.components().collect::<Vec<_>>(),
    );
    tally.compare(
        "components, back",
        texts,
        our.components().rev().collect::<Vec<_>>(),
        their.components().rev().collect::<Vec<_>>(),
    );
    tally.compare(
        "iter",
        texts,
        our.iter().collect::<Vec<_>>(),
        their.iter().collect::<Vec<_>>(),
    );
    let our_view = ours::RelativePath::from_path(text)
        .map(ToString::to_string)
        .map_err(|it| it.to_string());
    let their_view = theirs::RelativePath::from_path(text)
        .map(ToString::to_string)
        .map_err(|it| it.to_string());
    tally.compare_with_rule("from_path", texts, [our_view, their_view, viewed(text)]);
    let our_way = Path::new(text)
        .relative_to(other)
        .map(String::from)
        .map_err(|it| it.to_string());
    let their_way = theirs::PathExt::relative_to(Path::new(text), other)
        .map(String::from)
        .map_err(|it| it.to_string());
    tally.compare_with_rule("relative_to", texts, [our_way, their_way, way(text, other)]);
}

/// Compares the calls that change a buffer.
fn compare_buffers(tally: &mut Tally, text: &str, other: &str) {
    let mut our = ours::RelativePathBuf::from(text);
    let mut their = theirs::RelativePathBuf::from(text);
    let texts = (text, other);
    tally.compare("pop", texts, (our.pop(), &our), (their.pop(), &their));
    our.push(other);
    their.push(other);
    tally.compare("push", texts, &our, &their);
    tally.compare(
        "set_extension",
        texts,
        (our.set_extension(text), &our),
        (their.set_extension(text), &their),
    );
    our.set_file_name(other);
    their.set_file_name(other);
    tally.compare("set_file_name", texts, our, their);
}

fn main() -> ExitCode {
    let (mut numbers, mut tally) = (Numbers::new(), Tally::default());
    while tally.calls < CALLS {
        let (text, other) = numbers.texts();
        let (text, other) = (text.as_str(), other.as_str());
        for_each_call!(row, (tally, text, other));
        compare_path(&mut tally, text, other);
        compare_buffers(&mut tally, text, other);
    }
    println!(
        "{} calls; in {} of them the original crate differs by intent",
        tally.calls, tally.by_intent
    );
    println!(
        "{} passed, {} failed",
        tally.calls - tally.failed,
        tally.failed
    );
    ExitCode::from(u8::from(tally.failed > 0))
}
