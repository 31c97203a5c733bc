//! Linnetshelf's tool once more, written from the documents alone, to compare bytes with.

pub mod answer;
pub mod batch;
pub mod batch_cases;
pub mod circuit;
pub mod circuit_file;
pub mod counts;
pub mod direct;
pub mod examples;
pub mod generate;
pub mod good;
pub mod law;
pub mod limits;
pub mod month;
pub mod plan;
pub mod rule;
pub mod run;
pub mod stored;
pub mod stream;
pub mod write;
