//! What the judge asks of the queues, and what they answer.

/// An operation of a thread that owns a queue; the others name the queue that they look at.
#[derive(Clone, Copy, Debug, PartialEq, Eq)]
pub enum Operation {
    Push(u64),
    Pop,
    Length,
    LengthOf(usize),
    Steal(usize),
    Batch(usize, usize),
    BatchAndPop(usize, usize),
}

impl Operation {
    pub fn name(&self) -> &'static str {
        match self {
            Operation::Push(_) => "push",
            Operation::Pop => "pop",
            Operation::Length | Operation::LengthOf(_) => "length",
            Operation::Steal(_) => "steal",
            Operation::Batch(..) => "batch",
            Operation::BatchAndPop(..) => "batch and pop",
        }
    }

    /// The queue that it names.
    pub fn source(&self) -> Option<usize> {
        match *self {
            Operation::Push(_) | Operation::Pop | Operation::Length => None,
            Operation::LengthOf(source) | Operation::Steal(source) => Some(source),
            Operation::Batch(source, _) | Operation::BatchAndPop(source, _) => Some(source),
        }
    }

    /// It takes jobs as a thief does. From the own queue a batch only looks, and a batch and pop pops.
    pub fn steals(&self, thread: usize) -> bool {
        match *self {
            Operation::Steal(_) => true,
            Operation::Batch(source, _) | Operation::BatchAndPop(source, _) => source != thread,
            _ => false,
        }
    }
}

/// The crate's answer to an operation.
#[derive(Clone, Copy, Debug, PartialEq, Eq)]
pub enum Answer {
    Done,
    Job(u64),
    Nothing,
    Empty,
    Retry,
    Moved,
    Took(u64),
    Length(usize),
}

/// A queue as it stands. `cells` is the address of its ring's first cell.
#[derive(Clone, Copy, Debug, PartialEq, Eq)]
pub struct Shown {
    pub front: i64,
    pub back: i64,
    pub capacity: usize,
    pub cells: usize,
}

impl Shown {
    pub fn difference(&self) -> i64 {
        self.back.wrapping_sub(self.front)
    }

    pub fn length(&self) -> usize {
        self.difference().max(0) as usize
    }
}
