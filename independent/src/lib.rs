//! Recipe runs under watch: a second implementation of the rules, by walks over trees.

pub mod case;
pub mod job;
pub mod levels;
pub mod marks;
pub mod program;
pub mod random;
pub mod recipes;
pub mod rows;
pub mod run;
pub mod table;
pub mod text;
pub mod texts;
pub mod tree;
pub mod vectors;
pub mod writing;
