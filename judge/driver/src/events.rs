//! What a comparison must have met, counted by name: the rare events of interleavings, the boundaries of whole operations.
use crate::moods::{LEVELS, LIMITS};
use std::collections::BTreeMap;

pub const KINDS: [&str; 2] = ["batch", "batch and pop"];

pub fn flavour(lifo: bool) -> &'static str {
    if lifo {
        "LIFO"
    } else {
        "FIFO"
    }
}

#[derive(Default)]
pub struct Events {
    settled: BTreeMap<String, u64>,
    /// The call that is being made, and what has happened in the session with the call at which it did.
    call: usize,
    fresh: Vec<(usize, String)>,
}

impl Events {
    pub fn at(&mut self, call: usize) {
        self.call = call;
    }

    pub fn count(&mut self, name: impl Into<String>) {
        self.fresh.push((self.call, name.into()));
    }

    /// The session is over with so many calls: what happened behind them was not compared, and does not count.
    pub fn settle(&mut self, calls: usize) {
        for (_, name) in self.fresh.drain(..).filter(|(call, _)| *call < calls) {
            *self.settled.entry(name).or_insert(0) += 1;
        }
    }

    pub fn print(&self) {
        for (name, count) in &self.settled {
            println!("{:>12}  {}", count, name);
        }
    }

    /// Fails where one of these never happened.
    pub fn demand(&self, names: Vec<String>) {
        let missing: Vec<String> = names.into_iter().filter(|name| !self.settled.contains_key(name)).collect();
        if !missing.is_empty() {
            println!("NEVER HAPPENED: {}", missing.join("; "));
            std::process::exit(1);
        }
    }
}

/// An operation on a queue of this flavour and length.
pub fn boundary(operation: &str, lifo: bool, length: usize) -> String {
    format!("{} where a {} queue has {}", operation, flavour(lifo), length)
}

/// A batch of this kind, limit and pair of flavours.
pub fn limited(kind: &str, from: bool, into: bool, limit: usize) -> String {
    format!("{} from {} into {}, limit {}", kind, flavour(from), flavour(into), limit)
}

/// What whole operations must have met: every operation at every boundary, every limit of every batch.
pub fn boundaries() -> Vec<String> {
    let mut names = Vec::new();
    for lifo in [false, true] {
        for length in LEVELS {
            for operation in ["push", "pop", "length", "steal", "batch", "batch and pop"] {
                names.push(boundary(operation, lifo, length));
            }
        }
        for into in [false, true] {
            for kind in KINDS {
                names.extend(LIMITS.map(|limit| limited(kind, lifo, into, limit)));
            }
        }
    }
    names
}

/// What interleavings must have met.
pub fn rare() -> Vec<String> {
    let mut names: Vec<String> = [
        "growth by push",
        "growth by batch",
        "growth by batch and pop",
        "FIFO shrink",
        "LIFO shrink",
        "no FIFO shrink, since the difference first seen was larger",
        "swap while a thief holds the old ring",
        "read from a retired ring",
        "batch and pop from LIFO: a job taken from a retired ring",
        "read of a cell never written",
        "difference -1 in a FIFO queue",
        "difference -1 in a LIFO queue",
        "FIFO pop puts its front back",
        "LIFO pop puts its back back",
        "LIFO pop wins its last job",
        "LIFO pop loses its last job",
        "length of the own queue",
        "length of another queue",
        "length below 0",
        "length that the crate's other order of loads changes",
        "answer 8 of a push",
        "answer 8 of a batch",
    ]
    .map(String::from)
    .into();
    for from in ["FIFO", "LIFO"] {
        for end in ["Empty", "Success", "Retry, ring changed", "Retry, exchange lost"] {
            names.push(format!("steal from {}: {}", from, end));
        }
        names.push(format!("steal from the own {} queue: Success", from));
        for kind in KINDS {
            for end in ["Empty", "Success at its limit", "Retry, exchange lost"] {
                names.push(format!("{} from {}: {}", kind, from, end));
            }
            for into in ["FIFO", "LIFO"] {
                names.push(format!("{} from {} into {}: Success", kind, from, into));
            }
            for end in ["Empty", "Success"] {
                names.push(format!("{} from the own {} queue: {}", kind, from, end));
            }
        }
    }
    for kind in KINDS {
        for reason in ["back", "ring", "exchange"] {
            names.push(format!("{} from LIFO: stopped by {}", kind, reason));
        }
        names.push(format!("{} from LIFO into FIFO: reversed", kind));
    }
    // A batch and pop from a LIFO queue takes its first job with no second look at the ring.
    for first in ["batch from FIFO", "batch from LIFO", "batch and pop from FIFO"] {
        names.push(format!("{}: Retry, ring changed", first));
    }
    names
}
