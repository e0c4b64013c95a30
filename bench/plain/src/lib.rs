//! The column binder's engine in plain Rust: the house bank and four levels, the same bytes. It is what the proved engine is measured
//! against.

mod column;
mod engine;
mod kind;
mod node;
mod packing;
mod read;
mod sample;
mod schemes;
mod stats;

pub use column::Column;
pub use engine::bind;
pub use kind::Kind;
pub use read::read;
pub use stats::Stats;

/// Levels of the house binder.
pub const LEVELS: u32 = 4;

/// The most rows of a column.
pub const MAX_ROWS: usize = 131_072;

/// Parts that may be measured on their own.
pub mod parts {
    pub use crate::column::{cleaned, is_refused};
    pub use crate::packing::{pack, unpack};
    pub use crate::sample::sample;
    pub use crate::schemes::{codes, put_distances, split_runs};
}
