//! The second program: it asks `ask` random questions, runs `table` on random inputs, and compares every line with its own.
//!
//! It is written from the customer's demands and requests, the scope document and docs/ASK.md alone, and answers by
//! brute force: it keeps no notes, works every body of a merge out again, searches small layings through all maps of
//! steps, and tries each byte of a line on the rules of the notation. How it is used stands in `USAGE` below
//! (`second --help`).

mod answers;
mod asking;
mod beginnings;
mod building;
mod comparing;
mod comparing_prints;
mod counts;
mod covering;
mod draw;
mod examples;
mod kinds;
mod labels;
#[cfg(test)]
mod laying_tests;
mod line_answers;
mod line_examples;
#[cfg(test)]
mod line_tests;
mod lines;
mod maps;
mod meanings;
mod merging;
mod notation;
mod numbers;
mod printing;
mod question;
mod random;
mod reading;
mod routing;
mod satisfying;
mod starred;
mod starred_examples;
mod trees;

use question::LETTERS;
use std::io::{self, BufWriter, Read, Write};
use std::process::ExitCode;

const USAGE: &str = "\
second SEED COUNT [--letters LETTERS] [-- COMMAND ARGS..]
    Draws COUNT questions from SEED, asks them of COMMAND, and compares every line with
    this program's own. COMMAND reads questions from its standard input to the end and
    writes lines to its standard output, as docs/ASK.md says. Without COMMAND it is `./run ask`,
    started in the current folder. Then some streams are asked that end in an unknown letter
    or inside a question. A difference is printed, and its bytes go to difference-N.ask in
    the current folder. At the end, counts of what came up. The status is 1 if there was a
    difference, or if in 3000 questions or more some refusal or kind of answer never came up.
    With LETTERS, such as NVU, only questions of these letters are drawn.

second SEED COUNT --table [-- COMMAND ARGS..]
    Draws COUNT inputs of the program `table` from SEED, gives each to a run of COMMAND (without
    it `./run table`), and compares all that it prints with this program's own text. An input
    that makes a difference goes to difference-N.table. The status is 1 if there was a
    difference, or if in 200 inputs or more a kind of table or some refusal never came up.

second --all-lines LENGTH [-- COMMAND ARGS..]
    Asks every line of at most LENGTH bytes, each of them one of / * [ ] . a and a line feed,
    and compares. There are 19608 of at most 5 bytes, 137257 of at most 6. The status is 1 if
    there was a difference.

second SEED COUNT [--letters LETTERS] --answers
    Prints this program's own answers to the same questions, and asks nobody.

second SEED COUNT [--letters LETTERS] --questions
    Writes the bytes of the same questions to standard output.

second --be-ask
    Is `ask`: reads questions from standard input and writes the lines. So two builds of
    this program can be compared, and a difference looked at.

second --be-table
    Is `table`: reads a limit and a sheet from standard input and prints the table.

second --self-test
    Checks this program's own answers against the examples of document 01, the readings of
    docs/DECISIONS.md, what starred leaves cover, lines that are read, refused or written,
    and what easy misreadings would answer.

second --help
    Prints this.
";

fn main() -> ExitCode {
    let args: Vec<String> = std::env::args().skip(1).collect();
    let args: Vec<&str> = args.iter().map(|arg| arg.as_str()).collect();
    match args[..] {
        ["--help"] => status(print(USAGE)),
        ["--self-test"] => self_test(),
        ["--be-ask"] => status(be_ask()),
        ["--be-table"] => status(be_table()),
        ["--all-lines", length, ref options @ ..] => match length.parse() {
            Ok(length) => all_lines(length, options),
            _ => usage_error(),
        },
        [seed, count, ref options @ ..] => match (seed.parse(), count.parse()) {
            (Ok(seed), Ok(count)) => drawn(seed, count, options),
            _ => usage_error(),
        },
        _ => usage_error(),
    }
}

/// Whatever draws questions or inputs of `table`.
fn drawn(seed: u64, count: usize, options: &[&str]) -> ExitCode {
    let (table, letters, options) = match options {
        ["--table", rest @ ..] => (true, &LETTERS[..], rest),
        ["--letters", letters, rest @ ..] => (false, letters.as_bytes(), rest),
        _ => (false, &LETTERS[..], options),
    };
    if letters.is_empty() || !letters.iter().all(|letter| LETTERS.contains(letter)) {
        return usage_error();
    }
    let command: &[&str] = match options {
        ["--answers"] if !table => return status(print_answers(seed, count, letters)),
        ["--questions"] if !table => return status(print_questions(seed, count, letters)),
        ["--", command @ ..] if !command.is_empty() => command,
        [] if table => &["./run", "table"],
        [] => &["./run", "ask"],
        _ => return usage_error(),
    };
    let command = words(command);
    agreed(match table {
        true => comparing_prints::compare(seed, count, command),
        false => comparing::compare(seed, count, letters, command),
    })
}

fn all_lines(length: usize, options: &[&str]) -> ExitCode {
    let command: &[&str] = match options {
        ["--", command @ ..] if !command.is_empty() => command,
        [] => &["./run", "ask"],
        _ => return usage_error(),
    };
    agreed(comparing::compare_all_lines(length, words(command)))
}

fn words(command: &[&str]) -> Vec<String> {
    command.iter().map(|word| word.to_string()).collect()
}

fn agreed(yes: bool) -> ExitCode {
    match yes {
        true => ExitCode::SUCCESS,
        false => ExitCode::FAILURE,
    }
}

fn status(done: io::Result<()>) -> ExitCode {
    match done {
        Ok(()) => ExitCode::SUCCESS,
        Err(error) => {
            eprintln!("second: {error}");
            ExitCode::FAILURE
        }
    }
}

fn usage_error() -> ExitCode {
    eprint!("{USAGE}");
    ExitCode::from(2)
}

fn print(text: &str) -> io::Result<()> {
    io::stdout().write_all(text.as_bytes())
}

fn print_answers(seed: u64, count: usize, letters: &[u8]) -> io::Result<()> {
    let mut out = BufWriter::new(io::stdout().lock());
    let mut draw = draw::Draw::of(letters, seed);
    for _ in 0..count {
        writeln!(out, "{}", draw.next().1.line)?;
    }
    out.flush()
}

fn print_questions(seed: u64, count: usize, letters: &[u8]) -> io::Result<()> {
    let mut out = BufWriter::new(io::stdout().lock());
    let mut draw = draw::Draw::of(letters, seed);
    for _ in 0..count {
        out.write_all(&draw.next().0.bytes())?;
    }
    out.flush()
}

fn be_ask() -> io::Result<()> {
    let mut stream = Vec::new();
    io::stdin().lock().read_to_end(&mut stream)?;
    let mut out = BufWriter::new(io::stdout().lock());
    answers::answer_stream(&stream, &mut out)?;
    out.flush()
}

fn be_table() -> io::Result<()> {
    let mut input = Vec::new();
    io::stdin().lock().read_to_end(&mut input)?;
    io::stdout().write_all(&printing::printed(&input))
}

fn self_test() -> ExitCode {
    let mut wrong = 0;
    let examples = examples::all();
    for example in &examples {
        if example.got != example.expected {
            wrong += 1;
            println!("{}", example.name);
            println!("    expected: {}", example.expected);
            println!("    got:      {}", example.got);
        }
    }
    println!("second: {} examples, {wrong} do not hold", examples.len());
    if wrong == 0 {
        ExitCode::SUCCESS
    } else {
        ExitCode::FAILURE
    }
}
