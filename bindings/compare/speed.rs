//! Times the same calls of the package and of the original crate on the same paths, by turns, and prints a table.

#[macro_use]
mod shared;

use std::hint::black_box;
use std::path::Path;
use std::time::Instant;

use original as theirs;
use relative_path as ours;
use shared::{hash_of, Numbers};

/// How many pairs of paths a call is timed on.
const PAIRS: usize = 100;

/// How often each side has its turn. The best time counts.
const TURNS: usize = 9;

/// How long a turn takes at least, in nanoseconds.
const TURN: u128 = 1_000_000;

impl Numbers {
    /// Returns a path of so many bytes: names of up to eight letters, and among them some `.` and `..`.
    fn path(&mut self, len: usize) -> String {
        let mut path = String::new();
        while path.len() < len {
            match self.below(10) {
                0 => path.push('.'),
                1 => path.push_str(".."),
                _ => {
                    for _ in 0..=self.below(8) {
                        path.push(char::from(b'a' + u8::try_from(self.below(26)).unwrap()));
                    }
                }
            }
            path.push('/');
        }
        path.truncate(len);
        path
    }
}

/// Two paths; of the first one also its parent, its file name, and the path with another slash at its end.
struct Texts {
    path: String,
    other: String,
    parent: String,
    file_name: String,
    slashed: String,
}

impl Texts {
    fn new(path: String, other: String) -> Texts {
        let view = theirs::RelativePath::new(&path);
        Texts {
            parent: view.parent().map(ToString::to_string).unwrap_or_default(),
            file_name: view.file_name().unwrap_or_default().into(),
            slashed: format!("{path}/"),
            path,
            other,
        }
    }
}

/// Returns nanoseconds for a call of each side, the best of their turns.
fn times(all: &[Texts], ours: impl Fn(&Texts), theirs: impl Fn(&Texts)) -> [f64; 2] {
    let time = |call: &dyn Fn(&Texts), rounds: u32| {
        let start = Instant::now();
        for _ in 0..rounds {
            for texts in all {
                call(texts);
            }
        }
        start.elapsed().as_nanos()
    };
    let mut rounds = 1;
    while time(&theirs, rounds) < TURN {
        rounds *= 2;
    }
    let mut best = [u128::MAX; 2];
    for _ in 0..TURNS {
        best[0] = best[0].min(time(&ours, rounds));
        best[1] = best[1].min(time(&theirs, rounds));
    }
    best.map(|it| it as f64 / f64::from(rounds) / all.len() as f64)
}

/// Times one call of both sides.
macro_rules! row {
    ($table:expr, $name:literal, |$path:ident, $other:ident| $call:expr, |$texts:ident| $timed:expr) => {
        $table.add($name, |all| {
            times(
                all,
                |$texts| {
                    #[allow(unused_imports)]
                    use ours::{PathExt as _, RelativePath, RelativePathBuf};
                    let ($path, $other): (_, &str) = (RelativePath::new(&$texts.path), $timed);
                    let _ = ($path, $other);
                    black_box(&$call);
                },
                |$texts| {
                    #[allow(unused_imports)]
                    use theirs::{PathExt as _, RelativePath, RelativePathBuf};
                    let ($path, $other): (_, &str) = (RelativePath::new(&$texts.path), $timed);
                    let _ = ($path, $other);
                    black_box(&$call);
                },
            )
        });
    };
}

/// The table: a row for each call, and a column for each length.
struct Table {
    columns: Vec<Vec<Texts>>,
}

impl Table {
    /// Prints the row of a call: what it costs here for each nanosecond that it costs in the original crate.
    fn add(&self, name: &str, time: impl Fn(&[Texts]) -> [f64; 2]) {
        let cells = self.columns.iter().map(|all| {
            let [ours, theirs] = time(all);
            format!(" {:.2} ({ours:.0}) |", ours / theirs)
        });
        println!("| {name} |{}", cells.collect::<String>());
    }
}

fn main() {
    let mut numbers = Numbers::new();
    let mut column = |len: fn(&mut Numbers) -> usize| -> Vec<Texts> {
        let texts = (0..PAIRS).map(|_| {
            let (first, second) = (len(&mut numbers), len(&mut numbers));
            Texts::new(numbers.path(first), numbers.path(second))
        });
        texts.collect()
    };
    let columns = vec![
        column(|_| 10),
        column(|it| 20 + it.below(41)),
        column(|_| 400),
    ];
    let table = Table { columns };
    println!("| Call | 10 bytes | 20 to 60 bytes | 400 bytes |");
    println!("|---|--:|--:|--:|");
    row!(
        table,
        "components, from the front",
        |path, other| path.components().fold(0, |n, it| n + it.as_str().len()),
        |texts| ""
    );
    row!(
        table,
        "components, from the back",
        |path, other| path
            .components()
            .rev()
            .fold(0, |n, it| n + it.as_str().len()),
        |texts| ""
    );
    for_each_call!(row, table);
    row!(
        table,
        "five `push`es of a name",
        |path, other| {
            let mut buf = RelativePathBuf::new();
            for _ in 0..5 {
                buf.push(other);
            }
            buf
        },
        |texts| "name"
    );
    row!(
        table,
        "`relative_to`",
        |path, other| Path::new(path.as_str()).relative_to(other),
        |texts| &texts.other
    );
    let empty = || Texts::new(String::new(), String::new());
    let none: Vec<Texts> = (0..PAIRS).map(|_| empty()).collect();
    let [parent, nothing] = times(
        &none,
        |it| {
            black_box(ours::RelativePath::new(black_box(it.path.as_str())).parent());
        },
        |it| {
            black_box(theirs::RelativePath::new(black_box(it.path.as_str())));
        },
    );
    println!(
        "\n`parent` of the empty path, which returns at once: {:.1} ns.",
        parent - nothing
    );
}
