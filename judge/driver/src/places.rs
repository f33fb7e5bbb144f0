//! The paper's rule for places, which the crate does not have: a claim takes the lowest place that is not in use.

/// The place count of compared sessions: four threads keep at most eight places in use.
pub const PLACES: usize = 16;

pub struct Places {
    count: usize,
    /// The place of each ring, by its number.
    of_ring: Vec<usize>,
    /// The ring that each thread builds or holds.
    kept: Vec<Option<usize>>,
}

impl Places {
    pub fn new(count: usize, queues: usize) -> Places {
        Places { count, of_ring: (0..queues).collect(), kept: vec![None; queues] }
    }

    pub fn of(&self, ring: usize) -> usize {
        self.of_ring[ring]
    }

    pub fn kept(&self, thread: usize) -> Option<usize> {
        self.kept[thread]
    }

    pub fn keep(&mut self, thread: usize, ring: Option<usize>) {
        self.kept[thread] = ring;
    }

    /// The next ring is claimed, while these are the queues' rings. Gives whether there was a place for it.
    pub fn claim(&mut self, current: impl Iterator<Item = usize>) -> bool {
        let used: Vec<usize> = current.chain(self.kept.iter().flatten().copied()).map(|ring| self.of(ring)).collect();
        let free = (0..self.count).find(|place| !used.contains(place));
        self.of_ring.extend(free);
        free.is_some()
    }
}
