//! What the tests share: the proved library's calls, the specification read a second time, the oracle's answers in words, and the comparison.
pub mod answer;
pub mod building;
pub mod convert;
pub mod copies;
pub mod corpus;
pub mod covering;
pub mod expected;
pub mod expected_builders;
pub mod expected_cover;
pub mod expected_extractors;
pub mod expected_operators;
pub mod expected_short;
pub mod extracting;
pub mod lent;
pub mod lists;
pub mod names;
pub mod operation;
pub mod program;
pub mod proved;
pub mod proved_builders;
pub mod proved_cover;
pub mod proved_extractors;
pub mod proved_operators;
pub mod proved_posting;
pub mod proved_sheet;
pub mod proved_short;
pub mod proved_valuations;
pub mod proved_walk;
pub mod random;
pub mod reading;
pub mod reading_builders;
pub mod reading_cover;
pub mod reading_extractors;
pub mod reading_operators;
pub mod reading_program;
pub mod reading_sheet;
pub mod reading_short;
pub mod reading_walk;
pub mod run;
pub mod sample;
pub mod sampled;
pub mod sheets;
pub mod shortening;
pub mod spoiled;
pub mod spoiled_builds;
pub mod spoiled_covers;
pub mod tally;
pub mod timing;
pub mod truth;
pub mod wrong;

use std::path::PathBuf;

/// The repository's root.
pub fn root() -> PathBuf {
    PathBuf::from(env!("CARGO_MANIFEST_DIR")).join("../..")
}
