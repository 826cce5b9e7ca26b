// Calls of the original crate, over and over: tools/speed writes the calls and the arms.
#![allow(unused)]

mod floor;

use relative_path::{Component, PathExt, RelativePath};
use std::hash::{DefaultHasher, Hash, Hasher};
use std::hint::black_box;
use std::path::Path;

// CALLS
#[inline(never)]
fn call(number: usize, p: &str, q: &str) -> usize {
    match number {
        // ARMS
        _ => 0,
    }
}

fn pairs(text: &str) -> Vec<(&str, &str)> {
    let mut pairs = Vec::new();
    for line in text.split_terminator('\n') {
        pairs.push(line.split_once('\t').unwrap_or((line, "")));
    }
    pairs
}

fn main() {
    let input = std::io::read_to_string(std::io::stdin()).unwrap();
    let (numbers, text) = input.split_once('\n').unwrap_or(("", ""));
    let (number, rounds) = numbers.split_once('\t').unwrap_or(("", ""));
    let (number, rounds): (usize, usize) = (number.parse().unwrap_or(0), rounds.parse().unwrap_or(0));
    let lines = pairs(text);
    let mut sum: usize = 0;
    for _ in 0..rounds {
        for (p, q) in lines.iter() {
            sum = sum.wrapping_add(call(number, p, q));
        }
    }
    println!("{sum}");
}
