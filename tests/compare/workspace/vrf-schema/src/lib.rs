//! Replaces the crate root, which is not among the sources that we have. It
//! names the modules, re-exports what they use from the root, and makes one
//! private function available to the comparison.

pub mod cache;
#[cfg(feature = "checkpoint")]
pub mod checkpoint;
pub mod error;
pub mod export;
pub mod guid;
pub mod hash;
pub mod path;
pub mod reader;
pub mod resolve;

pub use cache::NetGuidCache;
pub use error::{Result, SchemaError};

/// Reads a field name as the export readers do. The original's function is
/// private to this crate, and the comparison of single readings needs it.
pub fn read_field_name(reader: &mut vrf_bitio::BitReader<'_>) -> Result<String> {
    Ok(reader::read_fname(reader)?.rendered)
}
