//! Drawing random questions: sound ones, damaged ones, and streams that end in a question. Inputs of `table` as well, and
//! all short lines.

mod aims;
mod all_lines;
mod damage;
mod documents;
mod drafts;
mod effort;
mod ends;
mod fields;
mod inputs;
mod label_names;
mod line_faults;
mod line_lengths;
mod line_names;
mod lines;
mod patterns;
mod questions;
mod sheets;
mod tables;
mod to_write;
mod turns;

pub use aims::aims_of;
pub use all_lines::{all_lines, reading_of};
pub use ends::{ends, Ending};
pub use inputs::Inputs;
pub use turns::Draw;
