//! The parts of a round.

use crate::pair::{Pair, Run};
use crate::random::Random;

mod appends;
mod conversations;
mod forms;
mod guesses;
mod published;
mod readings;
mod sizes;
mod states;
mod tables;
mod writers;

pub type Part = fn(&mut Pair, &mut Random) -> Run<()>;

pub const PARTS: [(&str, Part); 10] = [
    (
        "published vectors and captured conversations",
        published::run,
    ),
    ("whole conversations over a bad link", conversations::run),
    ("changed, cut and padded packets", forms::run),
    ("states of any octets", states::run),
    ("account tables", tables::run),
    ("accounts appended", appends::run),
    ("wrong guesses at two servers", guesses::run),
    ("sizes and stateless calls", sizes::run),
    ("whole readings, and texts of every length", readings::run),
    ("packets written", writers::run),
];
