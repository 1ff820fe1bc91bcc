//! Could a line begin so? The rules of the notation (#102) stand here as data, and what may still follow is kept as a set
//! of lists of pieces of them. Every byte is tried on each list; nothing else is known of a line.

/// What the rules name.
#[derive(Clone, Copy, PartialEq, Eq, Debug)]
enum Rule {
    Line,
    Branches,
    Bracketed,
    Inside,
    Branch,
    Axis,
    Rest,
    Name,
    Label,
}

#[derive(Clone, Copy, PartialEq, Eq, Debug)]
enum Piece {
    Byte(u8),
    LabelByte,
    One(Rule),
    /// None or one.
    Maybe(Rule),
    /// None or more.
    Any(Rule),
}

/// The ways to write what a rule names.
fn ways(rule: Rule) -> &'static [&'static [Piece]] {
    use Piece::*;
    use Rule::*;
    const FAR: [Piece; 2] = [Byte(b'/'), Byte(b'/')];
    match rule {
        Line => &[&[Byte(b'.')], &[One(Branches)]],
        Branches => &[
            &[One(Bracketed), Any(Bracketed), Maybe(Branch)],
            &[One(Branch)],
        ],
        Bracketed => &[&[Byte(b'['), One(Inside), Byte(b']')]],
        Inside => &[
            &[One(Branch)],
            &[One(Rest)],
            &[Byte(b'.'), FAR[0], FAR[1], One(Rest)],
        ],
        Branch => &[&[One(Axis), One(Rest)]],
        Axis => &[&[Byte(b'/')], &FAR],
        Rest => &[&[One(Name), Maybe(Branches)]],
        Name => &[&[Byte(b'*')], &[One(Label)]],
        Label => &[&[LabelByte, Maybe(Label)]],
    }
}

/// The bytes that a label in a line can't have.
pub const BARRED: [u8; 6] = *b"/*[].\n";

/// What may follow: pieces, the next one last.
type Follow = Vec<Piece>;

#[derive(Clone, Copy, PartialEq, Eq, Debug)]
pub enum Verdict {
    Sound,
    /// No line begins with the bytes up to and with the one at this place.
    Fault(usize),
    /// Some line begins with all the bytes, but none ends there.
    Early,
}

pub fn verdict(line: &[u8]) -> Verdict {
    let mut follows: Vec<Follow> = vec![vec![Piece::One(Rule::Line)]];
    for (place, &byte) in line.iter().enumerate() {
        follows = after(follows, byte);
        // Every rule can be brought to an end, so as long as a list is left, some line begins so.
        if follows.is_empty() {
            return Verdict::Fault(place);
        }
    }
    match follows.iter().any(|follow| can_be_nothing(follow)) {
        true => Verdict::Sound,
        false => Verdict::Early,
    }
}

fn after(follows: Vec<Follow>, byte: u8) -> Vec<Follow> {
    let mut later = Vec::new();
    for follow in follows {
        take(follow, byte, &mut later);
    }
    later
}

/// Adds what may follow behind the byte. No rule begins with itself, so this comes to an end.
fn take(mut follow: Follow, byte: u8, later: &mut Vec<Follow>) {
    let Some(next) = follow.pop() else {
        return;
    };
    let mut take_with = |first: &[Piece]| {
        let mut longer = follow.clone();
        longer.extend(first.iter().rev());
        take(longer, byte, later);
    };
    match next {
        Piece::One(rule) => ways(rule).iter().for_each(|way| take_with(way)),
        Piece::Maybe(rule) => {
            take_with(&[]);
            take_with(&[Piece::One(rule)]);
        }
        Piece::Any(rule) => {
            take_with(&[]);
            take_with(&[Piece::One(rule), Piece::Any(rule)]);
        }
        Piece::Byte(own) if own != byte => {}
        Piece::LabelByte if BARRED.contains(&byte) => {}
        Piece::Byte(_) | Piece::LabelByte if later.contains(&follow) => {}
        Piece::Byte(_) | Piece::LabelByte => later.push(follow),
    }
}

/// A rule always has at least one byte.
fn can_be_nothing(follow: &[Piece]) -> bool {
    let none = |piece: &Piece| matches!(piece, Piece::Maybe(_) | Piece::Any(_));
    follow.iter().all(none)
}
