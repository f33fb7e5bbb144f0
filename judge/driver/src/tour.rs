//! The tour: one session that leads through 01's games and every rare event, for the list of answers that is kept.
use crate::events::Events;
use crate::interleaved::Interleaved;
use crate::places::PLACES;
use crate::session::Session;
use asked::Operation::{self, Batch, BatchAndPop, Length, LengthOf, Pop, Push, Steal};

/// Two queues of each flavour.
const LIFO: [bool; 4] = [false, false, true, true];
const NO_LIMIT: usize = usize::MAX;

/// Either batch, for a source and a limit.
type Kind = fn(usize, usize) -> Operation;
const KINDS: [Kind; 2] = [Batch, BatchAndPop];

struct Tour<'a> {
    game: Interleaved<'a>,
    job: u64,
}

pub fn session(events: &mut Events) -> Session {
    let mut tour = Tour { game: Interleaved::new("tour".to_string(), PLACES, &LIFO, events), job: 0 };
    tour.alone();
    tour.pops_and_thieves();
    tour.lengths();
    for source in [0, 2] {
        tour.lost_exchanges(source);
        tour.changed_rings(source);
    }
    tour.stopped_batches();
    tour.held_place();
    tour.last_of_many();
    tour.growing_batches();
    tour.first_difference();
    tour.unwritten_cells();
    tour.last_push();
    tour.game.end()
}

impl Tour<'_> {
    fn whole(&mut self, thread: usize, operation: Operation) {
        self.game.begin(thread, operation);
        self.game.complete(thread);
    }

    fn part(&mut self, thread: usize, operation: Operation, steps: usize) {
        self.game.begin(thread, operation);
        self.steps(thread, steps);
    }

    fn steps(&mut self, thread: usize, steps: usize) {
        for _ in 0..steps {
            self.game.step(thread);
        }
    }

    fn reach(&mut self, owner: usize, level: usize) {
        while self.game.queues[owner].0.length() != level {
            self.job += 1;
            let more = self.game.queues[owner].0.length() < level;
            self.whole(owner, if more { Push(self.job) } else { Pop });
        }
    }

    /// Operations run alone: C1 to C10, limits, the own queue.
    fn alone(&mut self) {
        for own in [0, 3] {
            self.whole(own, Pop);
            self.reach(own, 1);
            self.whole(own, Steal(own));
            for source in [1, 2] {
                self.whole(own, Steal(source));
                for kind in KINDS {
                    self.whole(own, kind(own, 1));
                    self.whole(own, kind(source, 10));
                    for (jobs, limit) in [(5, 10), (5, 2), (2, 10), (1, 10)] {
                        self.reach(source, jobs);
                        self.whole(own, kind(source, limit));
                        self.whole(own, kind(own, 1));
                        self.reach(own, 0);
                        self.reach(source, 0);
                    }
                }
                self.reach(source, 1);
                self.whole(own, Steal(source));
            }
        }
    }

    /// The owner and a thief at the last job. C13, and the same for LIFO.
    fn pops_and_thieves(&mut self) {
        for owner in [0, 2] {
            self.reach(owner, 1);
            self.part(owner, Pop, 2);
            self.whole(1, Steal(owner));
            self.game.complete(owner);
        }
        // Both read the job; the thief's exchange is first.
        self.reach(2, 1);
        self.part(1, Steal(2), 5);
        self.part(2, Pop, 5);
        self.game.complete(1);
        self.game.complete(2);
    }

    /// Between a length's two loads two jobs come and go.
    fn lengths(&mut self) {
        self.reach(0, 1);
        self.whole(0, Length);
        self.reach(0, 0);
        self.part(1, LengthOf(0), 1);
        self.reach(0, 2);
        self.reach(0, 0);
        self.game.complete(1);
    }

    /// Another thief is quicker.
    fn lost_exchanges(&mut self, source: usize) {
        let (thief, other) = (1, 3);
        self.reach(source, 1);
        self.part(thief, Steal(source), 5);
        self.whole(other, Steal(source));
        self.game.complete(thief);
        for kind in KINDS {
            self.reach(source, 5);
            self.part(thief, kind(source, NO_LIMIT), 6);
            self.whole(other, Steal(source));
            self.game.complete(thief);
        }
        self.reach(source, 0);
    }

    /// The owner is one job away from changing its ring: C11 and C12.
    fn ready(&mut self, owner: usize) {
        let level = if self.game.queues[owner].0.capacity == 64 { 64 } else { 33 };
        self.reach(owner, level);
    }

    fn change_ring(&mut self, owner: usize) {
        let ring = self.game.queues[owner].1;
        while self.game.queues[owner].1 == ring {
            self.job += 1;
            let grow = self.game.queues[owner].0.capacity == 64;
            self.whole(owner, if grow { Push(self.job) } else { Pop });
        }
    }

    /// The owner changes its ring while a thief holds the old one.
    fn changed_rings(&mut self, source: usize) {
        self.ready(source);
        self.part(1, Steal(source), 3);
        self.change_ring(source);
        self.game.complete(1);
        for kind in KINDS {
            self.ready(source);
            self.part(1, kind(source, NO_LIMIT), 6);
            self.change_ring(source);
            self.game.complete(1);
            self.reach(1, 0);
        }
    }

    /// A batch from a LIFO queue has its first job when a new ring, another thief or the owner's pop of the last job ends it.
    fn stopped_batches(&mut self) {
        let source = 2;
        for (kind, first) in [(Batch as Kind, 10), (BatchAndPop as Kind, 8)] {
            self.ready(source);
            self.part(1, kind(source, NO_LIMIT), first);
            self.change_ring(source);
            self.game.complete(1);
            self.reach(1, 0);

            self.reach(source, 5);
            self.part(1, kind(source, NO_LIMIT), first);
            self.whole(3, Steal(source));
            self.game.complete(1);

            self.reach(source, 5);
            self.part(1, kind(source, NO_LIMIT), first);
            self.reach(source, 1);
            self.part(source, Pop, 3);
            self.game.complete(1);
            self.game.complete(source);
            self.reach(1, 0);
        }
    }

    /// A batch and pop holds a LIFO ring that its owner then retires, and takes its first job from it with no second look.
    /// Meanwhile another queue claims a ring and fills it: were the held place free, the thief would take that queue's job.
    fn held_place(&mut self) {
        self.ready(2);
        self.ready(0);
        self.part(1, BatchAndPop(2, NO_LIMIT), 6);
        self.change_ring(2);
        self.change_ring(0);
        let capacity = self.game.queues[0].0.capacity;
        self.reach(0, capacity);
        self.game.complete(1);
        self.reach(1, 0);
    }

    /// A thief leaves one job in a larger ring: a FIFO pop shrinks it, a LIFO pop does not (C12).
    fn last_of_many(&mut self) {
        for source in [0, 2] {
            self.reach(source, 65);
            while self.game.queues[source].0.length() > 1 {
                self.whole(1, Batch(source, NO_LIMIT));
                self.reach(1, 0);
            }
            self.whole(source, Pop);
        }
    }

    /// A batch for which the thief's own ring is too small.
    fn growing_batches(&mut self) {
        for (kind, own) in [(Batch as Kind, 1), (BatchAndPop as Kind, 3)] {
            self.reach(own, 64);
            self.reach(0, 5);
            self.whole(own, kind(0, NO_LIMIT));
            self.reach(own, 0);
        }
        self.reach(0, 0);
    }

    /// A thief takes a job between the owner's load of front and its fetch-and-add: no shrink.
    fn first_difference(&mut self) {
        self.reach(0, 65);
        self.reach(0, 33);
        self.part(0, Pop, 2);
        self.whole(1, Steal(0));
        self.game.complete(0);
    }

    /// A thief with an old front copies from a new ring, in which those jobs never were.
    fn unwritten_cells(&mut self) {
        self.reach(0, 65);
        self.part(1, Batch(0, NO_LIMIT), 1);
        self.reach(0, 31);
        self.game.complete(1);
    }

    /// The crate goes on growing, the machine answers 8: the session can only end here.
    fn last_push(&mut self) {
        for owner in 0..4 {
            self.reach(owner, 0);
        }
        self.reach(0, 256);
        self.job += 1;
        self.whole(0, Push(self.job));
    }
}
