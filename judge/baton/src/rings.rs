//! The rings of a session: numbered in the order of their allocation, and kept to its end, so that a late read finds its ring.
use crate::note_claim;
use std::sync::{Mutex, MutexGuard};

/// The size of a cell.
pub const CELL: usize = 8;

struct Ring {
    cells: *mut u64,
    /// Which of the cells were ever written.
    written: Vec<bool>,
}

unsafe impl Send for Ring {}

/// The place in the list is the ring number.
static RINGS: Mutex<Vec<Ring>> = Mutex::new(Vec::new());

fn rings() -> MutexGuard<'static, Vec<Ring>> {
    RINGS.lock().unwrap()
}

/// Where a cell lies: ring number and place in the ring.
fn find(rings: &[Ring], address: usize) -> (usize, usize) {
    for (number, ring) in rings.iter().enumerate().rev() {
        let start = ring.cells as usize;
        if start <= address && address < start + CELL * ring.written.len() {
            return (number, (address - start) / CELL);
        }
    }
    panic!("an access outside every ring");
}

/// A new ring has this memory.
pub fn claim(cells: *mut u64, capacity: usize) {
    let mut rings = rings();
    note_claim(rings.len(), capacity);
    rings.push(Ring { cells, written: vec![false; capacity] });
}

/// The number of the ring that has this cell.
pub fn number(address: usize) -> usize {
    find(&rings(), address).0
}

/// The number of the ring that has this cell, and whether the cell was ever written.
pub fn read(address: usize) -> (usize, bool) {
    let rings = rings();
    let (number, at) = find(&rings, address);
    (number, rings[number].written[at])
}

pub fn write(address: usize) {
    let mut rings = rings();
    let (number, at) = find(&rings, address);
    rings[number].written[at] = true;
}

/// Frees the rings of the last session. No queue of it may be in use.
pub fn forget() {
    for ring in rings().drain(..) {
        let cells = std::ptr::slice_from_raw_parts_mut(ring.cells, ring.written.len());
        drop(unsafe { Box::from_raw(cells) });
    }
}
