//! Sees what is rare about a step or about the end of an operation, and counts it.
use crate::events::{flavour, Events, KINDS};
use crate::interleaved::Running;
use crate::places::Places;
use crate::session::Queues;
use asked::{Answer, Operation};
use baton::Access;

/// A thread's step on the queue that its operation names, or on its own.
pub struct Witness<'a> {
    pub thread: usize,
    pub source: usize,
    pub lifo: &'a [bool],
    pub before: &'a Queues,
    pub now: &'a Queues,
}

impl Witness<'_> {
    /// A step; what the operation remembers and the rings that are kept are as before it.
    pub fn step(&self, running: &Running, access: Access, places: &Places, events: &mut Events) {
        for (queue, lifo) in self.lifo.iter().enumerate() {
            if self.now[queue].0.difference() == -1 && self.before[queue].0.difference() != -1 {
                events.count(format!("difference -1 in a {} queue", flavour(*lifo)));
            }
        }
        let kept = places.kept(self.thread);
        let from = flavour(self.lifo[self.source]);
        let name = running.operation.name();
        match access {
            Access::Load => {
                let f = running.first.map_or(0, |first| first.front) + running.taken;
                if kept.is_some() && running.taken > 0 && self.now[self.source].0.back - f <= 0 {
                    events.count(format!("{} from {}: stopped by back", name, from));
                }
            }
            Access::Exchange { won: true } if running.read_retired => {
                events.count(format!("{} from {}: a job taken from a retired ring", name, from))
            }
            Access::Exchange { won: false } => {
                events.count(match (running.operation.steals(self.thread), running.taken) {
                    (false, _) => "LIFO pop loses its last job".to_string(),
                    (true, 0) => format!("{} from {}: Retry, exchange lost", name, from),
                    (true, _) => format!("{} from {}: stopped by exchange", name, from),
                })
            }
            Access::LoadRing if kept.is_some() && kept != Some(self.now[self.source].1) => {
                events.count(match running.taken {
                    0 => format!("{} from {}: Retry, ring changed", name, from),
                    _ => format!("{} from {}: stopped by ring", name, from),
                })
            }
            Access::SwapRing => {
                let (old, new) = (self.before[self.thread], self.now[self.thread]);
                if (0..self.lifo.len()).any(|other| places.kept(other) == Some(old.1)) {
                    events.count("swap while a thief holds the old ring");
                }
                events.count(match old.0.capacity < new.0.capacity {
                    true => format!("growth by {}", name),
                    false => format!("{} shrink", flavour(self.lifo[self.thread])),
                })
            }
            Access::Read { ring, written } => {
                if self.now.iter().all(|(_, current)| *current != ring) {
                    events.count("read from a retired ring");
                }
                if !written {
                    events.count("read of a cell never written");
                }
            }
            _ => {}
        }
    }

    /// The end of an operation.
    pub fn end(&self, running: &Running, answer: Answer, events: &mut Events) {
        match running.operation {
            Operation::Push(_) => {}
            Operation::Length | Operation::LengthOf(_) => self.length(running, answer, events),
            operation if operation.steals(self.thread) => self.theft(running, answer, events),
            _ => self.pop(running, answer, events),
        }
    }

    fn length(&self, running: &Running, answer: Answer, events: &mut Events) {
        let (first, now) = (running.first.expect("a length's first step"), self.now[self.source].0);
        let difference = first.back.wrapping_sub(now.front);
        events.count(match running.operation {
            Operation::Length => "length of the own queue",
            _ => "length of another queue",
        });
        if answer != Answer::Length(difference.max(0) as usize) {
            events.count("length that the crate's other order of loads changes");
        }
        if difference < 0 {
            events.count("length below 0");
        }
        if difference > now.capacity as i64 {
            events.count("length above the capacity");
        }
    }

    /// A pop, or a batch of either kind from the own queue.
    fn pop(&self, running: &Running, answer: Answer, events: &mut Events) {
        let capacity = self.now[self.thread].0.capacity;
        let (own, steps) = (flavour(self.lifo[self.thread]), running.steps.len());
        match answer {
            Answer::Nothing | Answer::Empty if own == "FIFO" && steps == 4 => {
                events.count("FIFO pop puts its front back")
            }
            Answer::Nothing | Answer::Empty if own == "LIFO" && steps == 5 => {
                events.count("LIFO pop puts its back back")
            }
            Answer::Job(_) | Answer::Took(_) if running.taken == 1 => events.count("LIFO pop wins its last job"),
            Answer::Job(_) | Answer::Took(_) if own == "FIFO" && !running.swapped => {
                if capacity > 64 && running.at_add <= capacity as i64 / 4 {
                    events.count("no FIFO shrink, since the difference first seen was larger");
                }
            }
            _ => {}
        }
        let name = running.operation.name();
        if KINDS.contains(&name) {
            let end = if answer == Answer::Empty { "Empty" } else { "Success" };
            events.count(format!("{} from the own {} queue: {}", name, own, end));
        }
    }

    fn theft(&self, running: &Running, answer: Answer, events: &mut Events) {
        let (own, from) = (flavour(self.lifo[self.thread]), flavour(self.lifo[self.source]));
        let name = running.operation.name();
        match (running.operation, answer) {
            (_, Answer::Empty) => events.count(format!("{} from {}: Empty", name, from)),
            (Operation::Steal(source), Answer::Took(_)) => {
                events.count(format!("steal from {}: Success", from));
                if source == self.thread {
                    events.count(format!("steal from the own {} queue: Success", from));
                }
            }
            (Operation::Batch(_, limit), Answer::Moved) | (Operation::BatchAndPop(_, limit), Answer::Took(_)) => {
                events.count(format!("{} from {} into {}: Success", name, from, own));
                let moved = (self.now[self.thread].0.back - running.own_back) as usize;
                if from == "LIFO" && own == "FIFO" && moved > 1 {
                    events.count(format!("{} from LIFO into FIFO: reversed", name));
                }
                let in_hand = usize::from(answer != Answer::Moved);
                if moved + in_hand == limit {
                    events.count(format!("{} from {}: Success at its limit", name, from));
                }
            }
            _ => {}
        }
    }
}
