//! Comparing what the program `table` prints: one run for each input, all bytes beside this program's own.

use crate::asking::{run, Run};
use crate::comparing::{keep, shortened, MOST_DIFFERENCES};
use crate::draw::Inputs;
use crate::numbers::{refusals_of, Judged};
use crate::printing::printed;
use crate::question::hex;
use std::collections::BTreeMap;

/// From so many inputs on, tables of both kinds and every refusal must have come up.
const ENOUGH: usize = 200;

const AT_ONCE: &str = "a table, no rounds";
const AFTER_ROUNDS: &str = "a table after rounds";

/// Runs and compares; true if there was no difference and nothing was missing.
pub fn compare(seed: u64, count: usize, command: Vec<String>) -> bool {
    let mut inputs = Inputs::new(seed);
    let mut came_up = BTreeMap::new();
    let (mut tried, mut differences) = (0, 0);
    while tried < count && differences < MOST_DIFFERENCES {
        let input = inputs.next();
        let expected = printed(&input);
        let run = run(&command, input.clone());
        tried += 1;
        *came_up.entry(kind_of(&expected)).or_default() += 1;
        if run.trouble.is_none() && run.lines.concat() == expected {
            continue;
        }
        differences += 1;
        println!("input {tried} differs");
        report(&input, &expected, &run);
        keep(&format!("difference-{differences}.table"), &input, &command);
    }
    let missing = report_kinds(&came_up) && tried >= ENOUGH;
    println!("seed {seed}: {tried} inputs of the program `table`, {differences} differences");
    differences == 0 && !missing
}

/// What is counted of a text, by its first line: a refusal is its own kind.
fn kind_of(text: &[u8]) -> String {
    let first = text.split(|&byte| byte == b'\n').next().unwrap_or_default();
    if first.starts_with(b"refused ") {
        return first.escape_ascii().to_string();
    }
    match first.ends_with(b", 0 rounds") {
        true => AT_ONCE.to_string(),
        false => AFTER_ROUNDS.to_string(),
    }
}

fn report(input: &[u8], expected: &[u8], run: &Run) {
    println!("    input: {}", shortened(&hex(input)));
    for (name, text) in [("expected", expected), ("got", &run.lines.concat())] {
        println!("    {name}:");
        for line in text.split_inclusive(|&byte| byte == b'\n') {
            println!("        {}", shortened(&line.escape_ascii().to_string()));
        }
    }
    if let Some(trouble) = &run.trouble {
        println!("    the run failed: {trouble}");
    }
}

/// Prints how often each kind came up; true if one never did.
fn report_kinds(came_up: &BTreeMap<String, usize>) -> bool {
    let refusals = refusals_of(Judged::Sheet).iter();
    let mut kinds = vec![AT_ONCE.to_string(), AFTER_ROUNDS.to_string()];
    kinds.extend(refusals.map(|number| format!("refused {number}")));
    let mut missing = false;
    for kind in kinds {
        let count = *came_up.get(&kind).unwrap_or(&0);
        println!("  {kind:24}{count:6}");
        missing |= count == 0;
    }
    missing
}
