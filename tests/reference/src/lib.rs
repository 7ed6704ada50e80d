//! Track lines in plain Rust: smoothing, correcting, fitting, the start test, the data line, the hire block, a line
//! read back, line files and the common view of two, delays by date, a day of blocks at once, the length of a path,
//! and lines of version 01.
//!
//! Written from the papers alone and not from the proved program, so that the two can be compared. Every operation
//! answers with the papers' refusal numbers, in their order.
//!
//! Inside, a ps is counted in tenths. Sums are 64-bit where the limits on what is given leave room for them (the bound stands
//! beside each), and the sum of squares is 128-bit, as all of a path is. Build with overflow checks, as `cargo test` and the boundary test do, and
//! an overflow panics.

mod block;
mod day;
mod delays;
mod files;
mod fit;
pub mod good;
pub mod good_files;
pub mod good_stores;
mod line;
mod path;
pub mod published;
mod reader;
mod schedule;
pub mod seeded;
mod track;
pub mod tuned;
mod version01;
mod view;
pub mod waves;
pub mod worst;

pub use block::{block, block_bytes};
pub use day::{day, Offence};
pub use delays::{append, lookup, lookup_values, MOST_ENTRIES, SET_VALUES};
pub use files::{file_lines, keys, merge, FileLine, Keys, FILE_LINE_BYTES};
pub use fit::{fit, scatter, smooth, Fitted, LEAST_BLOCKS, MOST_BLOCKS, TENTHS, WEIGHTS};
pub use line::{line, Labels, LINE_BYTES};
pub use path::{path, Point, MOST_COORDINATE};
pub use reader::{comment, read, read_values, values, LONGEST_LINE, VALUES};
pub use schedule::{start, FIRST_MJD, LAST_MJD};
pub use track::{track, Columns, Delays, Numbers, Record, BLOCK_SECONDS, MOST_SECONDS};
pub use version01::{down, up, LONGEST_OLD, OLD_BYTES};
pub use view::{common_view, view_values, View, LONGEST_FILE, REPORT_VALUES};

/// Whether v lies within plus or minus the limit.
fn within(v: i64, limit: i64) -> bool {
    -limit <= v && v <= limit
}

/// The whole number nearest to n / d for d above 0, a tie going up.
fn nearest(n: i64, d: i64) -> i64 {
    (n + d / 2).div_euclid(d)
}

#[cfg(test)]
mod tests;
