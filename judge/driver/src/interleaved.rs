//! Interleavings: the crate's threads take scripted steps; after each the queues are written down for `play`.
use crate::events::Events;
use crate::places::Places;
use crate::players::Players;
use crate::session::{line, told, Queues, Session};
use crate::witness::Witness;
use asked::{Answer, Operation, Shown};
use baton::{Access, Claimed};

/// The largest ring of the machine. Where the crate goes beyond it, the machine answers 8.
pub const LARGEST: usize = 256;

/// In place of a call: the step was made when the session was over.
const NOT_PLAYED: usize = usize::MAX;

/// An operation in flight.
pub struct Running {
    pub operation: Operation,
    /// The calls of its steps so far.
    pub steps: Vec<usize>,
    /// The queue that it names, or its own, at its first step.
    pub first: Option<Shown>,
    /// The own back at its begin.
    pub own_back: i64,
    /// The exchanges won.
    pub taken: i64,
    /// The difference at a FIFO pop's fetch-and-add.
    pub at_add: i64,
    pub swapped: bool,
    /// The last cell read was in a retired ring.
    pub read_retired: bool,
}

pub struct Interleaved<'a> {
    players: Players,
    lifo: Vec<bool>,
    running: Vec<Option<Running>>,
    pub queues: Queues,
    places: Places,
    pub session: Session,
    events: &'a mut Events,
    /// The machine lacks a ring that the crate has: the two sides go on differently, and the session is over.
    pub parted: bool,
}

impl<'a> Interleaved<'a> {
    pub fn new(name: String, places: usize, lifo: &[bool], events: &'a mut Events) -> Interleaved<'a> {
        let players = Players::new(lifo);
        Interleaved {
            queues: players.shown(),
            players,
            lifo: lifo.to_vec(),
            running: lifo.iter().map(|_| None).collect(),
            places: Places::new(places, lifo.len()),
            session: Session::new(name, places, lifo),
            events,
            parted: false,
        }
    }

    pub fn is_idle(&self, thread: usize) -> bool {
        self.running[thread].is_none()
    }

    pub fn begin(&mut self, thread: usize, operation: Operation) {
        assert!(self.is_idle(thread), "a begin on a busy thread");
        self.players.begin(thread, operation);
        self.running[thread] = Some(Running {
            operation,
            steps: Vec::new(),
            first: None,
            own_back: self.queues[thread].0.back,
            taken: 0,
            at_add: 0,
            swapped: false,
            read_retired: false,
        });
        if !self.parted {
            self.session.begin(thread, operation, line("working", &self.queues, &self.places));
        }
    }

    /// Gives the crate's answer, if this was the last step.
    pub fn step(&mut self, thread: usize) -> Option<Answer> {
        let report = self.players.step(thread);
        let before = std::mem::replace(&mut self.queues, self.players.shown());
        let mut running = self.running[thread].take().expect("a busy thread");
        if self.parted {
            running.steps.push(NOT_PLAYED);
            self.part(&running, report.claimed);
            if report.answer.is_none() {
                self.running[thread] = Some(running);
            }
            return report.answer;
        }
        let source = running.operation.source().unwrap_or(thread);
        running.first.get_or_insert(before[source].0);
        let access = report.access.expect("a step is an access");
        self.events.at(self.session.calls());
        let witness = Witness { thread, source, lifo: &self.lifo, before: &before, now: &self.queues };
        witness.step(&running, access, &self.places, self.events);
        match access {
            Access::Add => running.at_add = before[thread].0.difference(),
            Access::Exchange { won: true } => running.taken += 1,
            Access::Read { ring, .. } => running.read_retired = before.iter().all(|(_, current)| *current != ring),
            Access::LoadRing if self.places.kept(thread).is_none() => self.places.keep(thread, Some(before[source].1)),
            Access::SwapRing => {
                running.swapped = true;
                self.places.keep(thread, None);
            }
            _ => {}
        }
        if let Some(claimed) = report.claimed {
            if !self.places.claim(before.iter().map(|(_, ring)| *ring)) {
                self.parted = true;
                self.running[thread] = Some(running);
                return None;
            }
            self.places.keep(thread, Some(claimed.ring));
        }
        let answer = match report.answer {
            None => "working".to_string(),
            Some(answer) => {
                self.places.keep(thread, None);
                told(answer, self.difference(source, &running, answer))
            }
        };
        running.steps.push(self.session.step(thread, line(&answer, &self.queues, &self.places)));
        match report.answer {
            None => {
                self.part(&running, report.claimed);
                self.running[thread] = Some(running);
            }
            Some(answer) => witness.end(&running, answer, self.events),
        }
        report.answer
    }

    /// Where the crate takes a ring larger than the machine's largest, the machine has answered 8: two steps earlier, at the
    /// load of front before the resize. The session is cut there.
    fn part(&mut self, running: &Running, claimed: Option<Claimed>) {
        if claimed.map_or(true, |claimed| claimed.capacity <= LARGEST) {
            return;
        }
        self.parted = true;
        let call = running.steps[running.steps.len() - 3];
        if call < self.session.calls() {
            self.session.cut(call, "gave-up 8");
            self.events.at(call);
            self.events.count(format!("answer 8 of a {}", running.operation.name()));
        }
    }

    /// The thread runs alone to the end of its operation.
    pub fn complete(&mut self, thread: usize) {
        while !self.is_idle(thread) {
            self.step(thread);
        }
    }

    /// Every operation is run to its end, and every queue popped until nothing is left.
    pub fn end(mut self) -> Session {
        for thread in 0..self.lifo.len() {
            self.complete(thread);
        }
        for thread in 0..self.lifo.len() {
            while !self.parted && self.queues[thread].0.length() > 0 {
                self.begin(thread, Operation::Pop);
                self.complete(thread);
            }
        }
        self.players.leave();
        self.events.settle(self.session.calls());
        self.session
    }

    /// A length's signed difference by the paper's loads, back at the first step and front at the second. The crate is held
    /// to its own: the owner's are the same, a thief's come in the other order.
    fn difference(&self, source: usize, running: &Running, answer: Answer) -> i64 {
        let length = match answer {
            Answer::Length(length) => length,
            _ => return 0,
        };
        let (first, now) = (running.first.expect("a length's first step"), self.queues[source].0);
        let difference = first.back.wrapping_sub(now.front);
        let theirs = match running.operation {
            Operation::Length => difference,
            _ => now.back.wrapping_sub(first.front),
        };
        assert_eq!(length, theirs.max(0) as usize, "the crate's length");
        difference
    }
}
