//! What the comparisons share: the proved functions as Rust can call them, the doubles to try them on with the generator
//! behind those, sums in more digits than a double has, chains and models with their bytes, and the Rust that is compared where
//! it stands beside the repository, with what it and document 01 say that an export must answer.

pub mod angles;
#[cfg(original)]
pub mod cables;
#[cfg(original)]
pub mod calls;
pub mod cases;
#[cfg(original)]
pub mod cell_calls;
#[cfg(all(test, original))]
mod cell_faults;
#[cfg(original)]
pub mod cell_paths;
#[cfg(original)]
pub mod cell_rows;
#[cfg(original)]
pub mod cell_tally;
pub mod chains;
#[cfg(original)]
pub mod courses;
#[cfg(original)]
pub mod divided;
#[cfg(original)]
pub mod divided_with_libm;
#[cfg(original)]
pub mod divisions;
pub mod exact;
pub mod extremes;
pub mod extremes_tally;
pub mod floats;
#[cfg(original)]
pub mod from_libm;
#[cfg(original)]
pub mod halvings;
#[cfg(original)]
pub mod insertions;
#[cfg(all(test, original))]
mod intended;
#[cfg(original)]
pub mod inverse_calls;
#[cfg(original)]
pub mod inverse_cases;
#[cfg(original)]
pub mod inverse_reference;
#[cfg(original)]
pub mod inverse_tally;
#[cfg(original)]
pub mod job_calls;
#[cfg(original)]
pub mod job_damages;
#[cfg(original)]
pub mod job_tally;
#[cfg(original)]
pub mod jobs;
pub mod joints;
pub mod lean;
#[cfg(original)]
pub mod loosened;
pub mod machines;
pub mod maztubel;
#[cfg(original)]
pub mod meeting_cases;
#[cfg(original)]
pub mod meeting_tally;
#[cfg(original)]
pub mod meetings;
pub mod met;
pub mod models;
pub mod numbers;
#[cfg(original)]
pub mod original;
pub mod parts;
#[cfg(original)]
pub mod paths;
#[cfg(original)]
pub mod posted;
pub mod probe;
#[cfg(original)]
pub mod program;
#[cfg(original)]
pub mod quote_tally;
#[cfg(original)]
pub mod quotes;
#[cfg(original)]
pub mod quota_tally;
#[cfg(original)]
pub mod quotas;
pub mod random;
pub mod reading;
#[cfg(original)]
pub mod reference;
#[cfg(original)]
pub mod remarkable;
pub mod replayed;
#[cfg(original)]
pub mod replayed_calls;
#[cfg(original)]
pub mod replayed_cells;
pub mod replayed_extremes;
pub mod replayed_functions;
#[cfg(original)]
pub mod replayed_jobs;
#[cfg(original)]
pub mod replayed_quotes;
#[cfg(original)]
pub mod replayed_quotas;
#[cfg(original)]
pub mod replayed_meetings;
#[cfg(original)]
pub mod replayed_stricts;
#[cfg(original)]
pub mod rust;
#[cfg(original)]
pub mod soak;
#[cfg(original)]
pub mod solved;
#[cfg(original)]
pub mod stops;
#[cfg(original)]
pub mod strict_cases;
#[cfg(original)]
pub mod strict_tally;
#[cfg(original)]
pub mod stricts;
#[cfg(original)]
pub mod tally;
pub mod targets;
pub mod teeth;
#[cfg(original)]
pub mod tooth_calls;
#[cfg(original)]
pub mod tooth_tally;
#[cfg(original)]
pub mod walks;
pub mod wave_tally;
pub mod waves;
#[cfg(original)]
pub mod ways;
#[cfg(original)]
pub mod write_tally;
#[cfg(original)]
pub mod writes;
#[cfg(original)]
pub mod zigzags;
