//! Stand-in for src/config.rs, which is not published with the rest: fields and types are those that the other files use.
use std::io;
use std::path::PathBuf;

mod inspect;

#[derive(Debug, Clone)]
pub struct Config {
    pub path: PathBuf,
    pub target_file_size: usize,
    pub file_compaction_percent: u8,
    pub partition_function: fn(u64, usize) -> u8,
    pub max_object_size: usize,
    pub small_file_cleanup_threshold: usize,
    pub min_compaction_files: usize,
    pub fsync_each_batch: bool,
}

/// Document 01's shard rule: how many bits the length needs.
fn bits_needed(_object_id: u64, size: usize) -> u8 {
    (usize::BITS - size.leading_zeros()) as u8
}

impl Default for Config {
    /// Document 01's defaults for the port; the original's own are not known.
    fn default() -> Config {
        Config {
            path: "".into(),
            target_file_size: 2048,
            file_compaction_percent: 75,
            partition_function: bits_needed,
            max_object_size: 1024,
            small_file_cleanup_threshold: 64,
            min_compaction_files: 2,
            fsync_each_batch: false,
        }
    }
}

impl Config {
    /// The original's refusals are not known; the comparison keeps settings in document 01's ranges.
    pub fn validate(&self) -> io::Result<()> {
        Ok(())
    }
}
