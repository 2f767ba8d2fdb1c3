//! Asks the fields of small jobs rows of questions by the static library, and compares the answers bit for bit with those of the Rust as document 01 reads it (oracle/); then damages
//! fields and their jobs, a word at a time, and compares with what the rooms then say (reader.rs).
//! Usage: compare questions FIRST COUNT | compare damage FIRST COUNT | compare all FIRST COUNT
mod damage;
mod fields;
mod library;
mod questions;
mod reader;

use library::Row;
use oracle::dump::bits;
use std::collections::BTreeMap;

/// How many differences are printed.
const PRINTED: u64 = 20;

/// Of so many jobs whose fields are asked, one is damaged.
const DAMAGED: u64 = 40;

#[derive(Default)]
struct Tally {
    /// By what was asked or damaged, and the answer's number.
    answers: BTreeMap<(&'static str, u32), u64>,
    differences: u64,
}

impl Tally {
    fn add(&mut self, kind: &'static str, number: u32, difference: Option<String>) {
        *self.answers.entry((kind, number)).or_default() += 1;
        if let Some(text) = difference {
            self.differences += 1;
            if self.differences <= PRINTED {
                println!("{text}");
            }
        }
    }

    /// Prints a run; whether there was a difference.
    fn differs(&self, name: &str) -> bool {
        for ((kind, number), n) in &self.answers {
            println!("{name}, {kind}, {number}: {n}");
        }
        let all: u64 = self.answers.values().sum();
        println!("{name}, all: {all}, {} differences", self.differences);
        self.differences > 0
    }
}

/// Whether a row has these numbers and distances; one NaN for all.
fn same(ours: &Row, theirs: &[(u32, f64)]) -> bool {
    let key = |a: &(u32, f64)| (a.0, bits(a.1));
    ours.0 == 0 && ours.1.iter().map(key).eq(theirs.iter().map(key))
}

fn main() {
    let words: Vec<String> = std::env::args().skip(1).collect();
    let words: Vec<&str> = words.iter().map(String::as_str).collect();
    let number = |text: &str| text.parse::<u64>().expect("a number");
    let questions = |first, count| questions::run(first, count).differs("questions");
    let damage = |first, count| damage::run(first, count).differs("damage");
    let wrong = match words[..] {
        ["questions", first, count] => questions(number(first), number(count)),
        ["damage", first, count] => damage(number(first), number(count)),
        ["all", first, count] => {
            let wrong = questions(number(first), number(count));
            damage(number(first), number(count) / DAMAGED) || wrong
        }
        _ => panic!("usage: compare questions|damage|all FIRST COUNT"),
    };
    std::process::exit(i32::from(wrong));
}
