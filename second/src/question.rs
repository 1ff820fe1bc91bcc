//! A question of docs/ASK.md: its letter and its parts, and its bytes in the stream.

use std::fmt::Write;

/// The letters, in the order of docs/ASK.md.
pub const LETTERS: [u8; 14] = *b"SDTMCGBPRWLNVU";

#[derive(Clone, Copy, PartialEq, Eq, Debug)]
pub enum Part {
    Sheet,
    Table,
    Document,
    Line,
    Pattern,
    Number,
    Limit,
    Room,
}

/// The parts of a letter, in order; none for a letter that is unknown.
pub fn parts_of(letter: u8) -> Option<&'static [Part]> {
    use Part::*;
    let parts: &[Part] = match letter {
        b'S' => &[Sheet],
        b'D' => &[Sheet, Document],
        b'T' => &[Sheet, Table],
        b'M' => &[Sheet, Document, Number],
        b'C' => &[Sheet, Number, Number],
        b'G' => &[Sheet, Number, Number, Room],
        b'B' => &[Sheet, Limit, Room],
        b'P' => &[Sheet, Document],
        b'R' | b'W' => &[Sheet, Table, Document],
        b'L' => &[Sheet, Document, Number],
        b'N' => &[Sheet, Line, Room],
        b'V' => &[Sheet, Pattern, Room],
        b'U' => &[Sheet, Number, Room],
        _ => return None,
    };
    Some(parts)
}

/// The parts that a letter doesn't have stay empty or zero.
#[derive(Clone, Default, Debug)]
pub struct Question {
    pub letter: u8,
    pub sheet: Vec<u8>,
    pub table: Vec<u8>,
    pub document: Vec<u8>,
    pub line: Vec<u8>,
    pub pattern: Vec<u8>,
    pub numbers: Vec<u64>,
    pub limit: u16,
    pub room: u16,
}

impl Question {
    pub fn parts(&self) -> &'static [Part] {
        parts_of(self.letter).expect("a known letter")
    }

    pub fn has(&self, part: Part) -> bool {
        self.parts().contains(&part)
    }

    /// The question as it stands in the stream.
    pub fn bytes(&self) -> Vec<u8> {
        let mut stream = vec![self.letter];
        let mut numbers = self.numbers.iter();
        for part in self.parts() {
            match part {
                Part::Sheet => add_bytes(&mut stream, &self.sheet),
                Part::Table => add_bytes(&mut stream, &self.table),
                Part::Document => add_bytes(&mut stream, &self.document),
                Part::Line => add_bytes(&mut stream, &self.line),
                Part::Pattern => add_bytes(&mut stream, &self.pattern),
                Part::Number => stream.extend(numbers.next().unwrap().to_le_bytes()),
                Part::Limit => stream.extend(self.limit.to_le_bytes()),
                Part::Room => stream.extend(self.room.to_le_bytes()),
            }
        }
        stream
    }

    /// The question for a reader: the letter, and each part with its name.
    pub fn shown(&self) -> String {
        let mut text = format!("{}", self.letter as char);
        let mut numbers = self.numbers.iter();
        for part in self.parts() {
            let shown = match part {
                Part::Sheet => hex(&self.sheet),
                Part::Table => hex(&self.table),
                Part::Document => hex(&self.document),
                // Lines are short, and easier to read as text.
                Part::Line => format!("{} {}", self.line.len(), self.line.escape_ascii()),
                Part::Pattern => hex(&self.pattern),
                Part::Number => numbers.next().unwrap().to_string(),
                Part::Limit => self.limit.to_string(),
                Part::Room => self.room.to_string(),
            };
            write!(text, "\n    {part:?}: {shown}").unwrap();
        }
        text
    }
}

fn add_bytes(stream: &mut Vec<u8>, bytes: &[u8]) {
    let length = u16::try_from(bytes.len()).expect("a part fits in a 16-bit length");
    stream.extend(length.to_le_bytes());
    stream.extend(bytes);
}

/// Two digits a byte, and `-` where there is none.
pub fn hex(bytes: &[u8]) -> String {
    if bytes.is_empty() {
        return "-".to_string();
    }
    bytes.iter().map(|byte| format!("{byte:02x}")).collect()
}

/// What stands next in a stream.
pub enum Next {
    Question(Question),
    Unknown,
    Cut,
    End,
}

/// Takes the next question off the front of a stream.
pub fn next_question(stream: &mut &[u8]) -> Next {
    let Some(letter) = take(stream, 1) else {
        return Next::End;
    };
    let letter = letter[0];
    let Some(parts) = parts_of(letter) else {
        return Next::Unknown;
    };
    let mut question = Question {
        letter,
        ..Question::default()
    };
    for part in parts {
        if read_part(stream, *part, &mut question).is_none() {
            return Next::Cut;
        }
    }
    Next::Question(question)
}

fn read_part(stream: &mut &[u8], part: Part, question: &mut Question) -> Option<()> {
    match part {
        Part::Sheet => question.sheet = take_bytes(stream)?,
        Part::Table => question.table = take_bytes(stream)?,
        Part::Document => question.document = take_bytes(stream)?,
        Part::Line => question.line = take_bytes(stream)?,
        Part::Pattern => question.pattern = take_bytes(stream)?,
        Part::Number => {
            let bytes = take(stream, 8)?;
            let number = u64::from_le_bytes(bytes.try_into().unwrap());
            question.numbers.push(number);
        }
        Part::Limit => question.limit = take_short(stream)?,
        Part::Room => question.room = take_short(stream)?,
    }
    Some(())
}

fn take_bytes(stream: &mut &[u8]) -> Option<Vec<u8>> {
    let length = take_short(stream)?;
    Some(take(stream, length as usize)?.to_vec())
}

fn take_short(stream: &mut &[u8]) -> Option<u16> {
    let bytes = take(stream, 2)?;
    Some(u16::from_le_bytes([bytes[0], bytes[1]]))
}

fn take<'a>(stream: &mut &'a [u8], count: usize) -> Option<&'a [u8]> {
    if stream.len() < count {
        return None;
    }
    let (front, rest) = stream.split_at(count);
    *stream = rest;
    Some(front)
}
