//! What a call does if a request for memory is refused, and how much memory its result keeps.
//!
//! This program has its own `malloc` and `realloc`, so it refuses the requests of the package and those of the proved
//! library. They call those of the C library, which has to be glibc.

use std::cell::Cell;
use std::env;
use std::ffi::c_void;
use std::os::unix::process::ExitStatusExt;
use std::path::{Path, PathBuf};
use std::process::{exit, Command, Output};
use std::ptr::null_mut;

use relative_path::{PathExt, RelativePath, RelativePathBuf};

extern "C" {
    fn __libc_malloc(size: usize) -> *mut c_void;
    fn __libc_realloc(old: *mut c_void, size: usize) -> *mut c_void;
}

thread_local! {
    /// How many requests this thread made, if they are counted.
    static SEEN: Cell<Option<usize>> = const { Cell::new(None) };
    /// The number of the first request of this thread that is refused, and whether all after it are refused too.
    static REFUSED: Cell<(usize, bool)> = const { Cell::new((0, false)) };
}

/// Counts a request, and returns whether it is granted.
fn is_granted() -> bool {
    let Some(seen) = SEEN.get() else {
        return true;
    };
    let number = seen + 1;
    SEEN.set(Some(number));
    let (refused, and_on) = REFUSED.get();
    refused == 0 || (number != refused && !(and_on && number > refused))
}

#[no_mangle]
unsafe extern "C" fn malloc(size: usize) -> *mut c_void {
    if !is_granted() {
        return null_mut();
    }
    // SAFETY: the call has no other condition than the one that it stands for.
    unsafe { __libc_malloc(size) }
}

#[no_mangle]
unsafe extern "C" fn realloc(old: *mut c_void, size: usize) -> *mut c_void {
    if !is_granted() {
        return null_mut();
    }
    // SAFETY: the call has no other condition than the one that it stands for, and all memory is from glibc.
    unsafe { __libc_realloc(old, size) }
}

/// A call on two texts, and what each of its requests does if it is refused.
struct Row {
    call: fn(&str, &str) -> String,
    text: String,
    other: String,
    /// For each request, the bytes that the program says it lacks as it ends; `None` if the call does without.
    lacks: &'static [Option<usize>],
}

fn text_of(path: PathBuf) -> String {
    path.into_os_string().into_string().unwrap()
}

/// Returns the rows. The comments say which memory a call asks for: first its own, then that of the library, which needs a
/// table for each path that it reads, or none, and its result.
fn rows() -> Vec<Row> {
    let row = |call, text: &str, other: &str, lacks| Row {
        call,
        text: text.into(),
        other: other.into(),
        lacks,
    };
    let climbs = format!("b/{}", "a/../".repeat(40));
    let (long, other) = ("a".repeat(197) + "/bb", "a".repeat(197) + "/cc");
    vec![
        // as many bytes as both texts have, and one more; the library allocates nothing
        row(
            |text, other| RelativePath::new(text).join(other).into(),
            "docs/a.md",
            "../img",
            &[Some(16)],
        ),
        // at least 64 bytes
        row(
            |text, other| {
                [text, other]
                    .into_iter()
                    .collect::<RelativePathBuf>()
                    .into()
            },
            "a",
            "b",
            &[Some(64)],
        ),
        // as many bytes as both texts have, and one more; a table, and the result
        row(
            |text, other| RelativePath::new(text).join_normalized(other).into(),
            "docs/a.md",
            "../img",
            &[Some(16), Some(16), Some(16)],
        ),
        // as many bytes as the text has; the library allocates nothing for a short text
        row(
            |text, _| RelativePath::new(text).normalize().into(),
            "docs/a.md",
            "",
            &[Some(9)],
        ),
        // as many bytes as the text has; the library does without the table and the result
        row(
            |text, _| RelativePath::new(text).normalize().into(),
            &climbs,
            "",
            &[Some(202), None, None],
        ),
        // as many bytes as both texts have, and one more; the result
        row(
            |text, other| RelativePath::new(text).with_file_name(other).into(),
            "docs/a.md",
            "index.html",
            &[Some(20), Some(20)],
        ),
        row(
            |text, other| RelativePath::new(text).with_extension(other).into(),
            "docs/a.md",
            "html",
            &[Some(14), Some(14)],
        ),
        // the buffer, then 64 bytes more; the result, of at most 14 bytes
        row(
            |text, other| {
                let mut path = RelativePathBuf::from(text);
                assert!(path.set_extension(other));
                path.into()
            },
            "docs/a.md",
            "html",
            &[Some(9), Some(73), Some(14)],
        ),
        // twice as many bytes as the first text has, as many as the other, and one more; two tables, and the result
        row(
            |text, other| RelativePath::new(text).relative(other).into(),
            "docs/guide",
            "img/a.png",
            &[Some(30), Some(30), Some(30), Some(30)],
        ),
        // the same
        row(
            |text, other| RelativePath::new(text).relative(other).into(),
            &long,
            &other,
            &[Some(601), Some(601), Some(601), Some(601)],
        ),
        // as many bytes as the text has; the result
        row(
            |text, _| RelativePathBuf::from_path(text).unwrap().into(),
            "docs/a.md",
            "",
            &[Some(9), Some(9)],
        ),
        // as many bytes as both texts have, and one more; the result
        row(
            |text, other| text_of(RelativePath::new(text).to_path(other)),
            "docs/a.md",
            "/srv",
            &[Some(14), Some(14)],
        ),
        row(
            |text, other| text_of(RelativePath::new(text).to_logical_path(other)),
            "../a.md",
            "/srv",
            &[Some(12), Some(12)],
        ),
        // twice as many bytes as the root has, as many as the text, and one more; the result
        row(
            |text, other| Path::new(text).relative_to(other).unwrap().into(),
            "/srv/a.md",
            "/srv/docs",
            &[Some(28), Some(28)],
        ),
    ]
}

/// What the process is asked that makes a call: the number of its row, and which request is refused.
const ASKED: &str = "RELATIVE_PATH_REFUSED";

/// Makes the call that the process is asked for, prints what it returns, and ends.
fn make_call(asked: &str) -> ! {
    let words: Vec<usize> = asked.split(' ').map(|it| it.parse().unwrap()).collect();
    let row = &rows()[words[0]];
    REFUSED.set((words[1], words[2] == 1));
    SEEN.set(Some(0));
    let made = (row.call)(&row.text, &row.other);
    let seen = SEEN.replace(None).unwrap();
    println!("\nrequests: {seen}, {made}");
    exit(0);
}

/// Runs this program again, for a call of which a request is refused.
fn refuse(row: usize, request: usize, and_on: bool) -> Output {
    Command::new(env::current_exe().unwrap())
        .args(["--exact", "each_request_is_refused", "--nocapture"])
        .env(ASKED, format!("{row} {request} {}", u8::from(and_on)))
        .output()
        .unwrap()
}

/// Returns what a call printed that returned.
fn printed(output: &Output) -> String {
    let text = String::from_utf8_lossy(&output.stdout);
    let at = text.find("requests: ").unwrap_or(text.len());
    text[at..].trim_end().into()
}

/// A call that a request is refused ends the program, as Rust's own types end it, unless the call can do without.
#[test]
fn each_request_is_refused() {
    if let Ok(asked) = env::var(ASKED) {
        make_call(&asked);
    }
    for (number, row) in rows().iter().enumerate() {
        let made = (row.call)(&row.text, &row.other);
        let wanted = format!("requests: {}, {made}", row.lacks.len());
        assert_eq!(printed(&refuse(number, 0, false)), wanted, "row {number}");
        for (request, lacks) in row.lacks.iter().enumerate() {
            for and_on in [false, true] {
                let output = refuse(number, request + 1, and_on);
                let Some(bytes) = lacks else {
                    let text = printed(&output);
                    assert!(
                        text.ends_with(&format!(", {made}")),
                        "row {number}, request {request}: {text}"
                    );
                    continue;
                };
                let words = format!("memory allocation of {bytes} bytes failed");
                let errors = String::from_utf8_lossy(&output.stderr);
                assert!(
                    errors.contains(&words),
                    "row {number}, request {request}: {errors}"
                );
                // a process that `abort` ends has this signal
                assert_eq!(
                    output.status.signal(),
                    Some(6),
                    "row {number}, request {request}"
                );
            }
        }
    }
}

/// A result keeps the memory that its call asked for.
#[test]
fn a_result_keeps_what_its_call_asked_for() {
    let (long, other) = ("a".repeat(197) + "/bb", "a".repeat(197) + "/cc");
    let made = String::from(RelativePath::new(&long).relative(&other));
    assert_eq!((made.as_str(), made.capacity()), ("../cc", 601));
}
