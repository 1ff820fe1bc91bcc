//! The kinds of answer that each letter can give when it is done.

use crate::line_answers::{READ_KINDS, WRITTEN_KINDS};

/// A merge where no candidate was left out at the roots, but one further down.
pub const CLIPPED_ONLY_BELOW: &str = "clipped only below";

/// A build where a cut had several entries to choose from.
pub const CUTS_AMONG_SEVERAL: &str = "cuts among several";

/// A yes that comes only from the last subscription that a sheet can have.
pub const LAST_ALONE: &str = "yes, by number 63 alone";

/// What would be otherwise if near steps lay on near children alone: a covering; a merge that is one of the two
/// patterns, and one that is built; the entries after the first settle; a table that is fair.
pub const YES_BY_STARRED: &str = "yes, by a starred leaf";
pub const COVERS_BY_STARRED: &str = "covers, by a starred leaf";
pub const BUILT_BY_STARRED: &str = "built, by a starred leaf";
pub const SETTLED_BY_STARRED: &str = "settled, by a starred leaf";
pub const SOUND_BY_STARRED: &str = "sound, by a starred leaf";

pub fn kinds_of(letter: u8) -> &'static [&'static str] {
    match letter {
        b'S' | b'D' => &["sound"],
        b'T' => &["sound", SOUND_BY_STARRED],
        b'M' => &["no", "yes"],
        b'C' => &["no", "yes", YES_BY_STARRED],
        b'G' => &[
            "i covers j",
            "j covers i",
            COVERS_BY_STARRED,
            "built",
            BUILT_BY_STARRED,
            "clipped",
            CLIPPED_ONLY_BELOW,
        ],
        b'B' => &[
            SETTLED_BY_STARRED,
            "no rounds",
            "rounds of merges",
            "cuts of a single entry",
            CUTS_AMONG_SEVERAL,
        ],
        b'P' => &["to none", "to some"],
        b'R' => &["no entry matches", "entries match, to none", "to some"],
        b'W' => &[
            "no, no entry matches",
            "no, though one matches",
            "yes, at the first entry",
            "yes, at a later entry",
            "yes, after one in vain",
            LAST_ALONE,
        ],
        b'N' => &READ_KINDS,
        b'V' | b'U' => &WRITTEN_KINDS,
        _ => &["of the sheet", "of the document"],
    }
}
