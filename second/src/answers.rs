//! The answer to each question: the line of docs/ASK.md, and what is counted of it.

use crate::building::build;
use crate::covering::covers;
use crate::kinds::{BUILT_BY_STARRED, COVERS_BY_STARRED, SETTLED_BY_STARRED};
use crate::kinds::{CLIPPED_ONLY_BELOW, CUTS_AMONG_SEVERAL, LAST_ALONE};
use crate::kinds::{SOUND_BY_STARRED, YES_BY_STARRED};
use crate::labels::label;
use crate::line_answers;
use crate::lines::not_a_line;
use crate::maps::{covers_checked, satisfies_checked};
use crate::merging::{merge, Merge, Rule};
use crate::numbers::{Judged, Refusal, ASKED, NOT_A_LINE, ROOM, UNFAIR};
use crate::question::{hex, next_question, Next, Question};
use crate::reading;
use crate::routing::{fair, plain_route, table_route, wanted, Found};
use crate::starred::{covering_hangs, fairness_hangs, merge_hangs, settling_hangs};
use crate::trees::{written, written_table, Document, Entry, Pattern, Sheet};
use std::io::{self, Write};

/// What each lent byte holds before the call.
const AS_FOUND: u8 = 0xa5;

pub struct Answer {
    pub line: String,
    pub outcome: Outcome,
}

/// What came of a question: a refusal, or done, with the kind of answer.
#[derive(Clone, Copy, PartialEq, Eq, PartialOrd, Ord, Debug)]
pub enum Outcome {
    Done(&'static str),
    Refused(Refusal),
}

/// The values that follow a 0, each after a space, and the kind of answer.
pub struct Values(pub String, pub &'static str);

pub fn answer(question: &Question) -> Answer {
    let result = match question.letter {
        b'S' => sheet_check(question),
        b'D' => document_check(question),
        b'T' => table_check(question),
        b'M' => does_match(question),
        b'C' => does_cover(question),
        b'G' => merge_of(question),
        b'B' => table_for(question),
        b'P' => plain(question),
        b'R' => by_table(question),
        b'W' => is_wanted(question),
        b'L' => label_bytes(question),
        b'N' => line_answers::read_line(question),
        b'V' => line_answers::write_pattern(question),
        b'U' => line_answers::write_subscription(question),
        letter => panic!("no such letter: {letter}"),
    };
    match result {
        Ok(Values(values, kind)) => Answer {
            line: format!("0{values}"),
            outcome: Outcome::Done(kind),
        },
        Err(refusal) => Answer {
            line: format!("{}{}", refusal.number, zeros(question, refusal)),
            outcome: Outcome::Refused(refusal),
        },
    }
}

/// What follows the number of a refused call; only with 13 is it more than zeros.
fn zeros(question: &Question, refusal: Refusal) -> String {
    match question.letter {
        b'S' | b'D' | b'T' => String::new(),
        b'M' | b'C' | b'W' => " 0".to_string(),
        b'G' | b'B' => format!(" 0 0 {}", lent_bytes(&[], question.room)),
        b'P' => format!(" {:016x} 0 64", 0),
        b'R' => format!(" {:016x} 0", 0),
        b'N' => {
            let place = place_with(question, refusal);
            format!(" {place} 0 {}", lent_bytes(&[], question.room))
        }
        b'V' | b'U' => format!(" 0 {}", lent_bytes(&[], question.room)),
        _ => " -".to_string(),
    }
}

/// The place that comes with a refusal of a line.
fn place_with(question: &Question, refusal: Refusal) -> usize {
    if refusal.number != NOT_A_LINE {
        return 0;
    }
    let (_, place) = not_a_line(&question.line).expect("no line");
    place
}

/// All lent bytes after the call: those written, and those behind as found.
pub fn lent_bytes(written: &[u8], room: u16) -> String {
    let mut lent = vec![AS_FOUND; room as usize];
    lent[..written.len()].copy_from_slice(written);
    hex(&lent)
}

pub fn refusal(judged: Judged, number: u8) -> Refusal {
    Refusal { judged, number }
}

pub fn read_sheet(question: &Question) -> Result<Sheet, Refusal> {
    reading::sheet(&question.sheet).map_err(|number| refusal(Judged::Sheet, number))
}

fn read_document(question: &Question, sheet: &Sheet) -> Result<Document, Refusal> {
    let read = reading::document(&question.document, sheet);
    read.map_err(|number| refusal(Judged::Document, number))
}

/// The table's bytes are judged first, and then whether it is fair.
fn read_table(question: &Question, sheet: &Sheet) -> Result<Vec<Entry>, Refusal> {
    let read = reading::table(&question.table, sheet);
    let entries = read.map_err(|number| refusal(Judged::Table, number))?;
    if !fair(sheet, &entries) {
        return Err(refusal(Judged::Table, UNFAIR));
    }
    Ok(entries)
}

/// All that a route by a table is asked with, each judged in full before the next.
fn read_all(question: &Question) -> Result<(Sheet, Vec<Entry>, Document), Refusal> {
    let sheet = read_sheet(question)?;
    let entries = read_table(question, &sheet)?;
    let document = read_document(question, &sheet)?;
    Ok((sheet, entries, document))
}

pub fn subscription(sheet: &Sheet, number: u64) -> Result<&Pattern, Refusal> {
    if number >= sheet.patterns.len() as u64 {
        return Err(refusal(Judged::Number, ASKED));
    }
    Ok(&sheet.patterns[number as usize])
}

pub fn check_room(written: &[u8], room: u16) -> Result<(), Refusal> {
    if written.len() > room as usize {
        return Err(refusal(Judged::Room, ROOM));
    }
    Ok(())
}

fn yes_or_no(yes: bool) -> Values {
    if yes {
        Values(" 1".to_string(), "yes")
    } else {
        Values(" 0".to_string(), "no")
    }
}

fn sheet_check(question: &Question) -> Result<Values, Refusal> {
    read_sheet(question)?;
    Ok(Values(String::new(), "sound"))
}

fn document_check(question: &Question) -> Result<Values, Refusal> {
    let sheet = read_sheet(question)?;
    read_document(question, &sheet)?;
    Ok(Values(String::new(), "sound"))
}

fn table_check(question: &Question) -> Result<Values, Refusal> {
    let sheet = read_sheet(question)?;
    let entries = read_table(question, &sheet)?;
    let kind = match fairness_hangs(&sheet, &entries) {
        true => SOUND_BY_STARRED,
        false => "sound",
    };
    Ok(Values(String::new(), kind))
}

fn does_match(question: &Question) -> Result<Values, Refusal> {
    let sheet = read_sheet(question)?;
    let document = read_document(question, &sheet)?;
    let pattern = subscription(&sheet, question.numbers[0])?;
    Ok(yes_or_no(satisfies_checked(&document, pattern)))
}

fn does_cover(question: &Question) -> Result<Values, Refusal> {
    let sheet = read_sheet(question)?;
    let first = subscription(&sheet, question.numbers[0])?;
    let second = subscription(&sheet, question.numbers[1])?;
    let yes = covers_checked(first, second);
    let Values(value, kind) = yes_or_no(yes);
    if yes && covering_hangs(first, second) {
        return Ok(Values(value, YES_BY_STARRED));
    }
    Ok(Values(value, kind))
}

fn merge_of(question: &Question) -> Result<Values, Refusal> {
    let sheet = read_sheet(question)?;
    let first = subscription(&sheet, question.numbers[0])?;
    let second = subscription(&sheet, question.numbers[1])?;
    let merged = merge(first, second);
    // What makes a table safe: a merge covers both patterns that it stands for.
    assert!(covers(&merged.pattern, first) && covers(&merged.pattern, second));
    let bytes = written(&merged.pattern);
    check_room(&bytes, question.room)?;
    let lent = lent_bytes(&bytes, question.room);
    let clipped = merged.clipped.anywhere() as u8;
    let kind = kind_of_merge(&merged, merge_hangs(first, second, &merged));
    Ok(Values(format!(" {} {clipped} {lent}", bytes.len()), kind))
}

fn kind_of_merge(merged: &Merge, hangs: bool) -> &'static str {
    match merged.rule {
        Rule::FirstCovers | Rule::SecondCovers if hangs => COVERS_BY_STARRED,
        Rule::FirstCovers => "i covers j",
        Rule::SecondCovers => "j covers i",
        Rule::Built if merged.clipped.at_roots => "clipped",
        Rule::Built if merged.clipped.below => CLIPPED_ONLY_BELOW,
        Rule::Built if hangs => BUILT_BY_STARRED,
        Rule::Built => "built",
    }
}

fn table_for(question: &Question) -> Result<Values, Refusal> {
    let sheet = read_sheet(question)?;
    let built = build(&sheet, question.limit);
    // Demand 3: every table we build passes the table check.
    assert!(fair(&sheet, &built.entries), "built, but not fair");
    let bytes = written_table(&built.entries);
    check_room(&bytes, question.room)?;
    let kind = match (built.rounds, built.cuts) {
        _ if settling_hangs(&sheet) => SETTLED_BY_STARRED,
        (0, _) => "no rounds",
        (_, 0) => "rounds of merges",
        _ if built.cuts_among_several > 0 => CUTS_AMONG_SEVERAL,
        _ => "cuts of a single entry",
    };
    let lent = lent_bytes(&bytes, question.room);
    let values = format!(" {} {} {lent}", bytes.len(), built.rounds);
    Ok(Values(values, kind))
}

fn plain(question: &Question) -> Result<Values, Refusal> {
    let sheet = read_sheet(question)?;
    let document = read_document(question, &sheet)?;
    let delivered = plain_route(&sheet, &document);
    let sheds = (0..64).filter(|i| delivered >> i & 1 == 1).count();
    let lowest = (0..64).find(|i| delivered >> i & 1 == 1).unwrap_or(64);
    let kind = if sheds == 0 { "to none" } else { "to some" };
    let values = format!(" {delivered:016x} {sheds} {lowest}");
    Ok(Values(values, kind))
}

fn by_table(question: &Question) -> Result<Values, Refusal> {
    let (sheet, entries, document) = read_all(question)?;
    let route = table_route(&sheet, &entries, &document);
    // Demand 3: a fair table delivers to the same subscriptions as asking each one.
    assert_eq!(route.delivered, plain_route(&sheet, &document));
    let some_match = route.found.iter().any(|&found| found != Found::NoMatch);
    let kind = match (some_match, route.delivered) {
        (false, _) => "no entry matches",
        (true, 0) => "entries match, to none",
        (true, _) => "to some",
    };
    let values = format!(" {:016x} {}", route.delivered, route.tried);
    Ok(Values(values, kind))
}

/// The table is judged, but has no part in the value; it only says of which kind the answer is.
fn is_wanted(question: &Question) -> Result<Values, Refusal> {
    let (sheet, entries, document) = read_all(question)?;
    let yes = wanted(&sheet, &document);
    let route = table_route(&sheet, &entries, &document);
    // Yes is a route that is not 0.
    assert_eq!(yes, route.delivered != 0);
    let kind = if route.delivered == 1 << 63 {
        LAST_ALONE
    } else {
        way_to_first(&route.found)
    };
    let Values(value, _) = yes_or_no(yes);
    Ok(Values(value, kind))
}

/// What stands before the first entry that has a member which matches.
fn way_to_first(found: &[Found]) -> &'static str {
    let first = found.iter().position(|&found| found == Found::Members);
    let before = &found[..first.unwrap_or(found.len())];
    let in_vain = before.contains(&Found::InVain);
    match (first, in_vain) {
        (None, false) => "no, no entry matches",
        (None, true) => "no, though one matches",
        (Some(0), _) => "yes, at the first entry",
        (Some(_), false) => "yes, at a later entry",
        (Some(_), true) => "yes, after one in vain",
    }
}

fn label_bytes(question: &Question) -> Result<Values, Refusal> {
    let sheet = read_sheet(question)?;
    let document = read_document(question, &sheet)?;
    let number = question.numbers[0];
    let Some(bytes) = label(&sheet, &document, number) else {
        return Err(refusal(Judged::Number, ASKED));
    };
    let of_sheet = number <= sheet.labels.len() as u64;
    let kind = if of_sheet {
        "of the sheet"
    } else {
        "of the document"
    };
    Ok(Values(format!(" {}", hex(bytes)), kind))
}

/// The lines for a whole stream, as `ask` writes them.
pub fn answer_stream(mut stream: &[u8], out: &mut impl Write) -> io::Result<()> {
    loop {
        match next_question(&mut stream) {
            Next::Question(question) => writeln!(out, "{}", answer(&question).line)?,
            Next::Unknown => return writeln!(out, "unknown"),
            Next::Cut => return writeln!(out, "cut"),
            Next::End => return Ok(()),
        }
    }
}

#[cfg(test)]
mod tests {
    use super::*;
    use crate::draw::{ends, Draw};
    use crate::question::LETTERS;

    #[test]
    fn a_stream_is_answered_question_by_question() {
        let mut draw = Draw::new(3);
        let (mut stream, mut expected) = (Vec::new(), String::new());
        for _ in 0..120 {
            let (question, answer) = draw.next();
            stream.extend(question.bytes());
            expected += &(answer.line + "\n");
        }
        let mut lines = Vec::new();
        answer_stream(&stream, &mut lines).unwrap();
        assert_eq!(String::from_utf8(lines).unwrap(), expected);
    }

    #[test]
    fn streams_end_as_they_should() {
        for ending in ends(3, 20, &LETTERS) {
            let mut lines = Vec::new();
            answer_stream(&ending.stream, &mut lines).unwrap();
            let expected: String = ending.lines.iter().map(|l| format!("{l}\n")).collect();
            assert_eq!(String::from_utf8(lines).unwrap(), expected);
        }
    }

    #[test]
    fn a_refusal_shows_zeros_and_the_bytes_as_found() {
        let mut stream = b"G\x01\0\0".to_vec();
        stream.extend([0; 16]);
        stream.extend([2, 0]);
        stream.extend(b"P\0\0\0\0W\0\0\0\0\0\0L\0\0\0\0\0\0\0\0\0\0\0\0x");
        let mut lines = Vec::new();
        answer_stream(&stream, &mut lines).unwrap();
        let expected = "1 0 0 a5a5\n1 0000000000000000 0 64\n1 0\n1 -\nunknown\n";
        assert_eq!(String::from_utf8(lines).unwrap(), expected);
    }

    #[test]
    fn a_refused_line_shows_its_place() {
        let stream = b"N\x02\0\0\0\x02\0[.\x01\0N\x01\0\0\x01\0a\0\0V\x02\0\0\0\x01\0\x11\x01\0";
        let mut lines = Vec::new();
        answer_stream(stream, &mut lines).unwrap();
        let expected = "13 2 0 a5\n1 0 0 -\n5 0 a5\n";
        assert_eq!(String::from_utf8(lines).unwrap(), expected);
    }
}
