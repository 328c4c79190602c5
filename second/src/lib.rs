//! An independent second implementation of the specification, written from
//! the paper alone: cubes are sorted lists of literal numbers, expressions are
//! sets of cubes, and every operation transcribes its sentence.

pub mod blif;
pub mod cokernel;
pub mod column;
pub mod compare;
pub mod cubes;
pub mod divide;
pub mod extract;
pub mod factor;
pub mod generate;
pub mod image;
pub mod line;
pub mod map;
pub mod network;
pub mod protocol;
pub mod refusal;
pub mod report;
pub mod spoil;
pub mod table;
