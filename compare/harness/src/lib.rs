//! The proved tool and its implementations in plain and in tuned Rust side by side: cases compared, calls measured.
//!
//! Without the feature `proved` what calls the proved library is left out, and its archive is not needed: rules and
//! measuring then serve `../pass_alone`.

pub mod batches;
#[cfg(feature = "proved")]
pub mod calls;
#[cfg(feature = "proved")]
pub mod cases;
#[cfg(feature = "proved")]
pub mod differ;
pub mod files;
pub mod ladder;
pub mod machine;
pub mod measure;
pub mod mixed;
pub mod months;
#[cfg(feature = "proved")]
pub mod page;
pub mod subject;
pub mod tool;
