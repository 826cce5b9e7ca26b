//! The crate `relative-path` as a program, which answers lines by its calls.
//!
//! `oracle` answers the lines that `tools/conformance` describes, and `oracle relpath` those of this
//! repository's program `relpath`, with its limit, its faults and its status.

mod calls;
mod relpath;

use std::env;
use std::process::ExitCode;

fn main() -> ExitCode {
    let words: Vec<String> = env::args().skip(1).collect();
    let words: Vec<&str> = words.iter().map(String::as_str).collect();
    let (name, ended) = match words.as_slice() {
        [] => ("oracle", calls::run().map_err(|fault| fault.to_string())),
        ["relpath"] => (
            "relpath",
            relpath::run().map_err(|fault| format!("{fault:?}")),
        ),
        _ => (
            "oracle",
            Err("its one argument, if any, is `relpath`".to_string()),
        ),
    };
    match ended {
        Ok(()) => ExitCode::SUCCESS,
        Err(fault) => {
            eprintln!("{name}: {fault}");
            ExitCode::FAILURE
        }
    }
}
