//! The operations of the C interface in plain Rust, written for speed: the proved library is measured beside it (document 02,
//! Job 13).
//!
//! It gives the answers of the papers in every case: the boundary test compares it with `reference`, and `reference` with the archive.
//! It is safe Rust without intrinsics. Each number is decoded and tested once, and a day's lines are kept in a Vec.
//!
//! It is no reading of the papers by itself, as `reference` is. It takes types, constants and the length of a block from there, and
//! shapes of the work from the proved library. That it agrees with the two says that its times are those of the same work, and nothing
//! about the papers.

mod block;
mod day;
mod delays;
mod digits;
mod files;
mod labels;
mod path;
mod reader;
mod start;
mod text;
mod track;
mod version01;

pub use block::{block, line};
pub use day::day;
pub use delays::{append, lookup_values};
pub use files::{merge, view_values};
pub use path::path;
pub use reader::{comment_from, read_values};
pub use start::start;
pub use version01::{down, up};

/// Whether v is outside plus or minus the limit: one comparison.
#[inline(always)]
fn beyond(v: i64, limit: i64) -> bool {
    v.wrapping_add(limit) as u64 > 2 * limit as u64
}
