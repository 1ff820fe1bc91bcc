//! The numbers given back (document 01, "Numbers given back"; from 13 on #102), and which part drew one.

pub const ENDS: u8 = 1;
pub const REMAINS: u8 = 2;
pub const LENGTH: u8 = 3;
pub const REPEATED: u8 = 4;
pub const COUNT: u8 = 5;
pub const PARENT: u8 = 6;
pub const AXIS: u8 = 7;
pub const LABEL: u8 = 8;
pub const SECOND_NEAR: u8 = 9;
pub const ROOM: u8 = 10;
pub const ASKED: u8 = 11;
pub const UNFAIR: u8 = 12;
pub const NOT_A_LINE: u8 = 13;
pub const UNKNOWN_LABEL: u8 = 14;
pub const NOT_WRITABLE: u8 = 15;

/// What is judged, in the order in which it is judged.
#[derive(Clone, Copy, PartialEq, Eq, PartialOrd, Ord, Debug)]
pub enum Judged {
    Sheet,
    Table,
    Document,
    Pattern,
    /// A line has a byte that no line could have there.
    Fault,
    /// A line only ends early.
    Early,
    /// The first 1,024 bytes of a longer line are without fault; then it has one or ends early.
    Late,
    /// A line is sound, and longer than 1,024 bytes.
    Longer,
    /// What a line says.
    Line,
    Number,
    /// The labels of what is to be written as a line.
    Writing,
    Room,
}

pub const ALL_JUDGED: [Judged; 12] = [
    Judged::Sheet,
    Judged::Table,
    Judged::Document,
    Judged::Pattern,
    Judged::Fault,
    Judged::Early,
    Judged::Late,
    Judged::Longer,
    Judged::Line,
    Judged::Number,
    Judged::Writing,
    Judged::Room,
];

/// A number other than 0, and the part that drew it.
#[derive(Clone, Copy, PartialEq, Eq, PartialOrd, Ord, Debug)]
pub struct Refusal {
    pub judged: Judged,
    pub number: u8,
}

/// Every refusal that each part can draw.
pub fn refusals_of(judged: Judged) -> &'static [u8] {
    match judged {
        Judged::Sheet => &[1, 2, 3, 4, 5, 6, 7, 8, 9],
        Judged::Table => &[1, 2, 5, 6, 7, 8, 9, 12],
        Judged::Document => &[1, 2, 3, 4, 5, 6, 8],
        Judged::Pattern => &[1, 2, 5, 6, 7, 8, 9],
        Judged::Fault | Judged::Early | Judged::Late | Judged::Longer => &[13],
        Judged::Line => &[14, 5, 9],
        Judged::Number => &[11],
        Judged::Writing => &[15],
        Judged::Room => &[10],
    }
}
