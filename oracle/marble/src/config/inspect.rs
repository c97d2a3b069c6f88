//! Harness only: views of private state and calls that document 01 names but the original keeps private.
//! They stand below the config stand-in so that no original file changes.
use crate::{DiskLocation, Marble, RelativeDiskLocation};
use std::cmp::Reverse;
use std::io;
use std::sync::atomic::Ordering::SeqCst;

pub struct Record {
    pub lsn: u64,
    pub trailer_offset: u64,
    pub file_size: u64,
    pub present: u64,
    pub generation: u8,
    pub live: u64,
    pub synced: bool,
    pub claimed: bool,
}

impl Marble {
    /// every file, ascending by raw location
    pub fn records(&self) -> Vec<Record> {
        let fams = self.file_map.fams.iter().map(|(_, fam)| {
            let m = fam.metadata().copied().unwrap_or_default();
            Record {
                lsn: fam.location.lsn(),
                trailer_offset: m.trailer_offset,
                file_size: m.file_size,
                present: m.present_objects,
                generation: fam.generation,
                live: fam.live_objects.load(SeqCst),
                synced: fam.synced.load(SeqCst),
                claimed: fam.rewrite_claim.load(SeqCst),
            }
        });
        let mut all: Vec<Record> = fams.collect();
        all.reverse();
        all
    }
    pub fn next_position(&self) -> u64 {
        self.file_map.next_file_lsn.load(SeqCst)
    }
    /// false: no such file, or the claim stands so already
    pub fn set_claim(&self, lsn: u64, to: bool) -> bool {
        let fam = self.file_map.fams.get(&Reverse(DiskLocation::new_fam(lsn)));
        fam.map_or(false, |f| f.rewrite_claim.swap(to, SeqCst) != to)
    }
    /// whether any file was synced, which `Marble::sync_all` does not tell
    pub fn sync(&self) -> io::Result<bool> {
        self.file_map.sync_all()
    }
    pub fn prune(&self) -> io::Result<()> {
        self.prune_empty_files()
    }

    // the table's four calls on raw numbers; a raw 0 panics, as the original's own unwrap does

    pub fn load(&self, id: u64) -> Option<u64> {
        self.location_table.load(id).map(|l| l.to_raw())
    }
    pub fn store(&self, id: u64, raw: u64) {
        self.location_table.store(id, DiskLocation::from_raw(raw).unwrap())
    }
    pub fn cas(&self, id: u64, old: u64, new: u64) -> Result<(), u64> {
        let (old, new) = (DiskLocation::from_raw(old).unwrap(), DiskLocation::from_raw(new).unwrap());
        self.location_table.cas(id, old, new).map_err(|l| l.to_raw())
    }
    pub fn fetch_max(&self, id: u64, raw: u64) -> Option<u64> {
        let held = self.location_table.fetch_max(id, DiskLocation::from_raw(raw).unwrap());
        held.unwrap_or_else(|greater| greater).map(|l| l.to_raw())
    }

    // locations, which need no store

    /// raw number of an absolute position
    pub fn absolute(position: u64, delete: bool) -> u64 {
        DiskLocation::new(position, delete).to_raw()
    }
    /// raw number of a relative position, and of its sum with a file's lsn
    pub fn relative(position: u64, delete: bool, lsn: u64) -> (u64, u64) {
        let location = RelativeDiskLocation::new(position, delete);
        (location.to_raw(), location.to_absolute(lsn).to_raw())
    }
}
