//! Stand-in for pagetable: a total map from u64 to a cell, default (0) until stored; clones share the cells.
use std::collections::HashMap;
use std::sync::{Arc, Mutex};

pub struct PageTable<T> {
    cells: Arc<Mutex<HashMap<u64, Box<T>>>>,
}

impl<T> Clone for PageTable<T> {
    fn clone(&self) -> Self {
        PageTable { cells: self.cells.clone() }
    }
}

impl<T> Default for PageTable<T> {
    fn default() -> Self {
        PageTable { cells: Default::default() }
    }
}

impl<T: Default> PageTable<T> {
    pub fn get(&self, key: u64) -> &T {
        let mut cells = self.cells.lock().unwrap();
        let cell: *const T = &**cells.entry(key).or_default();
        // a box's target never moves, and no cell is removed while the table lives
        unsafe { &*cell }
    }
}
