//! Comparing: batches of questions, each line beside this program's own.

use crate::answers::{answer, Answer};
use crate::asking::{run, Run};
use crate::counts::{Counts, ENOUGH};
use crate::draw::{all_lines, ends, reading_of, Draw, Ending};
use crate::notation::shown;
use crate::question::Question;
use crate::reading;
use std::fs;

const BATCH: usize = 500;
/// After so many differences there is no use in going on.
pub const MOST_DIFFERENCES: usize = 20;

pub struct Comparison {
    command: Vec<String>,
    counts: Counts,
    differences: usize,
}

/// Asks and compares; true if there was no difference and nothing was missing.
pub fn compare(seed: u64, count: usize, letters: &[u8], command: Vec<String>) -> bool {
    let Some(mut comparison) = Comparison::begun(letters, command) else {
        return false;
    };
    let mut draw = Draw::of(letters, seed);
    let mut asked = 0;
    while asked < count && comparison.differences < MOST_DIFFERENCES {
        let batch = BATCH.min(count - asked);
        let drawn = (0..batch).map(|_| draw.next()).collect();
        comparison.compare_batch(drawn, asked);
        asked += batch;
    }
    let streams = 10 + count / 250;
    comparison.compare_ends(&ends(seed, streams, letters));
    comparison.counts.print();
    println!();
    let missing = comparison.report_missing(asked);
    println!(
        "seed {seed}: {asked} questions, {streams} ends of streams, {} differences",
        comparison.differences
    );
    comparison.differences == 0 && !missing
}

/// Asks every line of at most so many bytes (`all_lines`); true if there was no difference.
pub fn compare_all_lines(most: usize, command: Vec<String>) -> bool {
    let Some(mut comparison) = Comparison::begun(b"N", command) else {
        return false;
    };
    let lines = all_lines(most);
    for (i, batch) in lines.chunks(BATCH).enumerate() {
        if comparison.differences < MOST_DIFFERENCES {
            let questions = batch.iter().map(|line| reading_of(line));
            let answered = questions.map(|question| {
                let own = answer(&question);
                (question, own)
            });
            comparison.compare_batch(answered.collect(), i * BATCH);
        }
    }
    let (count, read) = (lines.len(), comparison.counts.done(b'N'));
    println!(
        "all {count} lines of at most {most} bytes, {read} of them read, {} differences",
        comparison.differences
    );
    comparison.differences == 0
}

impl Comparison {
    /// None if the command doesn't run.
    fn begun(letters: &[u8], command: Vec<String>) -> Option<Comparison> {
        let mut comparison = Comparison {
            command,
            counts: Counts::new(letters),
            differences: 0,
        };
        // The empty stream has no line, and shows whether the command starts at all.
        comparison.report_run(&run(&comparison.command, Vec::new()), 0);
        (comparison.differences == 0).then_some(comparison)
    }

    fn compare_batch(&mut self, batch: Vec<(Question, Answer)>, before: usize) {
        let count = batch.len();
        let mut questions = Vec::new();
        let mut expected = Vec::new();
        let mut stream = Vec::new();
        for (question, answer) in batch {
            self.counts.add(question.letter, answer.outcome);
            stream.extend(question.bytes());
            expected.push(answer.line);
            questions.push(question);
        }
        let run = run(&self.command, stream);
        for i in 0..count {
            let got = run.lines.get(i);
            if is_line(got, &expected[i]) {
                continue;
            }
            println!("question {} differs", before + i + 1);
            self.report_question(&questions[..=i], &expected[i], got);
            // Without a line here, the rest of the batch has none either.
            if got.is_none() || self.differences >= MOST_DIFFERENCES {
                break;
            }
        }
        self.report_run(&run, count);
    }

    /// Reports the last of these questions; those before it were asked in the same run.
    fn report_question(&mut self, run_of: &[Question], expected: &str, got: Option<&Vec<u8>>) {
        let question = run_of.last().expect("a question");
        println!("{}", shortened(&question.shown()));
        if let Ok(sheet) = reading::sheet(&question.sheet) {
            for (i, pattern) in sheet.patterns.iter().enumerate() {
                println!("    s{i} = {}", shown(pattern, &sheet.labels));
            }
        }
        self.report_lines(&[expected.to_string()], got.map(std::slice::from_ref));
        let alone = run(&self.command, question.bytes());
        if is_line(alone.lines.first(), expected) {
            println!("    asked alone: as expected; the file has the questions before it too");
            let all: Vec<u8> = run_of.iter().flat_map(|q| q.bytes()).collect();
            self.keep(&all);
        } else {
            println!("    asked alone: differs too");
            self.keep(&question.bytes());
        }
    }

    fn report_lines(&self, expected: &[String], got: Option<&[Vec<u8>]>) {
        for line in expected {
            println!("    expected: {}", shortened(line));
        }
        for line in got.unwrap_or_default() {
            println!(
                "    got:      {}",
                shortened(&line.escape_ascii().to_string())
            );
        }
        if got.is_none() {
            println!("    got:      no line");
        }
    }

    fn keep(&mut self, stream: &[u8]) {
        self.differences += 1;
        let name = format!("difference-{}.ask", self.differences);
        keep(&name, stream, &self.command);
    }

    /// A run must give as many lines as it had questions, and end well.
    fn report_run(&mut self, run: &Run, count: usize) {
        if let Some(trouble) = &run.trouble {
            println!("a run failed: {trouble}");
            self.differences += 1;
        } else if run.lines.len() > count {
            println!("{} lines for {count} questions", run.lines.len());
            self.differences += 1;
        }
    }

    fn compare_ends(&mut self, endings: &[Ending]) {
        for ending in endings {
            if self.differences >= MOST_DIFFERENCES {
                return;
            }
            let run = run(&self.command, ending.stream.clone());
            let mut pairs = run.lines.iter().zip(&ending.lines);
            let all_same = pairs.all(|(got, line)| is_line(Some(got), line));
            if all_same && run.lines.len() == ending.lines.len() {
                self.report_run(&run, ending.lines.len());
                continue;
            }
            println!("a stream of {} bytes differs", ending.stream.len());
            self.report_lines(&ending.lines, Some(&run.lines));
            self.keep(&ending.stream);
        }
    }

    /// In a long run everything that can come up must come up.
    fn report_missing(&self, asked: usize) -> bool {
        let missing = self.counts.missing();
        if asked < ENOUGH || missing.is_empty() {
            return false;
        }
        println!("never came up: {}", missing.join("; "));
        true
    }
}

/// Writes the bytes to a file with which they can be asked again.
pub fn keep(name: &str, bytes: &[u8], command: &[String]) {
    match fs::write(name, bytes) {
        Ok(()) => println!("    ask again: {} < {name}", command.join(" ")),
        Err(error) => println!("    can't write {name}: {error}"),
    }
    println!();
}

/// The line with its line feed.
fn is_line(got: Option<&Vec<u8>>, expected: &str) -> bool {
    got.is_some_and(|got| got.strip_suffix(b"\n") == Some(expected.as_bytes()))
}

/// Very long hexadecimals are shown in part; the file has them whole.
pub fn shortened(text: &str) -> String {
    const MOST: usize = 4_000;
    if text.len() <= MOST {
        return text.to_string();
    }
    format!("{} .. ({} characters)", &text[..MOST], text.len())
}
