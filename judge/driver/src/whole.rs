//! Whole operations: the same ones on the crate itself and on `play`. The scripted copy, running free, tells how many steps
//! each takes, and is held to the crate's answers too.
use crate::events::{boundary, limited, Events};
use crate::interleaved::LARGEST;
use crate::moods::{choose, LEVELS, LIMITS};
use crate::places::{Places, PLACES};
use crate::players::{new_queues, shown_with_ring};
use crate::random::Random;
use crate::session::{line, told, Judge, Queues, Session};
use asked::{Answer, Operation};
use baton::unscripted;

struct Whole<'a> {
    crate_workers: Vec<original::Worker<u64>>,
    crate_queues: Vec<original::Stealer<u64>>,
    workers: Vec<scripted::Worker<u64>>,
    stealers: Vec<scripted::Stealer<u64>>,
    lifo: Vec<bool>,
    queues: Queues,
    places: Places,
    session: Session,
    events: &'a mut Events,
    job: u64,
}

impl<'a> Whole<'a> {
    fn new(name: String, lifo: &[bool], events: &'a mut Events) -> Whole<'a> {
        let crate_workers: Vec<_> = lifo.iter().map(|&lifo| original::new_worker(lifo)).collect();
        let crate_queues = crate_workers.iter().map(original::Worker::stealer).collect();
        let (workers, stealers) = new_queues(lifo);
        Whole {
            crate_workers,
            crate_queues,
            lifo: lifo.to_vec(),
            queues: stealers.iter().map(shown_with_ring).collect(),
            workers,
            stealers,
            places: Places::new(PLACES, lifo.len()),
            session: Session::new(name, PLACES, lifo),
            events,
            job: 0,
        }
    }

    fn length(&self, queue: usize) -> usize {
        self.queues[queue].0.length()
    }

    /// The load of front at which the machine answers 8, if it does: the crate would grow past the largest ring.
    fn shortage(&self, thread: usize, operation: Operation) -> Option<usize> {
        let (before, wanted) = match operation {
            Operation::Push(_) => (0, 1),
            Operation::Batch(source, limit) if source != thread => (2, ((self.length(source) + 1) / 2).min(limit)),
            Operation::BatchAndPop(source, limit) if source != thread => {
                (2, ((self.length(source).max(1) - 1) / 2).min(limit - 1))
            }
            _ => return None,
        };
        (self.length(thread) + wanted > LARGEST).then(|| before + 2)
    }

    fn count(&mut self, thread: usize, operation: Operation) {
        let queue = operation.source().unwrap_or(thread);
        self.events.at(self.session.calls());
        self.events.count(boundary(operation.name(), self.lifo[queue], self.length(queue)));
        if let Operation::Batch(source, limit) | Operation::BatchAndPop(source, limit) = operation {
            if source != thread {
                self.events.count(limited(operation.name(), self.lifo[source], self.lifo[thread], limit));
            }
        }
    }

    fn play(&mut self, thread: usize, operation: Operation) {
        self.count(thread, operation);
        if let Some(steps) = self.shortage(thread, operation) {
            return self.give_up(thread, operation, steps);
        }
        let answer = original::perform(operation, &self.crate_workers[thread], &self.crate_queues);
        let before = unscripted();
        let copy = scripted::perform(operation, &self.workers[thread], &self.stealers);
        let steps = unscripted() - before;
        let queues: Queues = self.stealers.iter().map(shown_with_ring).collect();
        assert_eq!(answer, copy, "the crate and its copy");
        for (queue, (shown, _)) in self.crate_queues.iter().zip(&queues) {
            let same = original::shown(queue);
            assert_eq!(
                (same.front, same.back, same.capacity),
                (shown.front, shown.back, shown.capacity),
                "the crate and its copy"
            );
        }
        if queues[thread].1 != self.queues[thread].1 {
            self.places.claim(self.queues.iter().map(|(_, ring)| *ring));
        }
        self.queues = queues;
        self.working(thread, operation, steps);
        let difference = match answer {
            Answer::Length(length) => length as i64,
            _ => 0,
        };
        let told = told(answer, difference);
        self.session.step(thread, line(&told, &self.queues, &self.places));
    }

    /// The begin, and all steps but the last.
    fn working(&mut self, thread: usize, operation: Operation, steps: usize) {
        self.session.begin(thread, operation, "working".to_string());
        for _ in 1..steps {
            self.session.step(thread, "working".to_string());
        }
    }

    /// The machine alone: it answers 8 and leaves the queues as they are.
    fn give_up(&mut self, thread: usize, operation: Operation, steps: usize) {
        self.working(thread, operation, steps);
        self.session.step(thread, line("gave-up 8", &self.queues, &self.places));
    }

    /// The owner pushes or pops until its queue has this length.
    fn reach(&mut self, owner: usize, level: usize) {
        while self.length(owner) != level {
            let job = self.next_job();
            let more = self.length(owner) < level;
            self.play(owner, if more { Operation::Push(job) } else { Operation::Pop });
        }
    }

    fn next_job(&mut self) -> u64 {
        self.job = self.job.wrapping_add(1);
        self.job
    }
}

/// A random session of about so many operations, in stretches near a boundary; at the end all contents are popped.
pub fn session(seed: u64, operations: u64, events: &mut Events) -> Session {
    let mut random = Random::new(seed);
    let lifo: Vec<bool> = (0..1 + random.below(4)).map(|_| random.one_in(2)).collect();
    let mut game = Whole::new(format!("whole {}", seed), &lifo, events);
    game.job = random.next();
    while game.session.operations() < operations {
        let levels: Vec<usize> = lifo.iter().map(|_| random.of(&LEVELS)).collect();
        for (owner, level) in levels.iter().enumerate() {
            if random.one_in(2) {
                game.reach(owner, *level);
            }
        }
        let thieving = random.of(&[10, 50, 90]);
        for _ in 0..random.below(60) {
            let thread = random.below(lifo.len());
            let job = game.next_job();
            let operation = choose(&mut random, thread, &game.queues, levels[thread], thieving, job);
            game.play(thread, operation);
        }
    }
    for owner in 0..lifo.len() {
        game.reach(owner, 0);
    }
    game.events.settle(game.session.calls());
    game.session
}

/// What two threads can do, each to its own queue and to the other's.
fn moves() -> Vec<(usize, Operation)> {
    let mut moves = Vec::new();
    for thread in 0..2 {
        let other = 1 - thread;
        moves.extend([
            (thread, Operation::Push(0)),
            (thread, Operation::Pop),
            (thread, Operation::Length),
            (thread, Operation::LengthOf(other)),
            (thread, Operation::Steal(thread)),
            (thread, Operation::Steal(other)),
            (thread, Operation::Batch(thread, 1)),
            (thread, Operation::BatchAndPop(thread, 1)),
        ]);
        for limit in LIMITS {
            moves.push((thread, Operation::Batch(other, limit)));
            moves.push((thread, Operation::BatchAndPop(other, limit)));
        }
    }
    moves
}

/// All sequences of this length, for each pair of flavours, from queues of these lengths; sequences of one session follow
/// each other on the same queues. Gives how many sequences and operations there were.
pub fn exhaustive(judge: &mut Judge, length: u32, start: (usize, usize)) -> (u64, u64) {
    let moves = moves();
    let (mut sequences, mut operations) = (0, 0);
    for lifo in [[false, false], [false, true], [true, false], [true, true]] {
        let mut next = 0;
        let all = moves.len().pow(length);
        while next < all {
            let name = format!("exhaustive {} from {:?}, flavours {:?}", length, start, lifo);
            let mut events = Events::default();
            let mut game = Whole::new(name, &lifo, &mut events);
            for sequence in next..all.min(next + 2000) {
                game.reach(0, start.0);
                game.reach(1, start.1);
                let mut rest = sequence;
                for _ in 0..length {
                    let (thread, operation) = moves[rest % moves.len()];
                    rest /= moves.len();
                    let job = game.next_job();
                    game.play(thread, if operation == Operation::Push(0) { Operation::Push(job) } else { operation });
                }
                game.reach(0, 0);
                game.reach(1, 0);
                sequences += 1;
            }
            next += 2000;
            operations += game.session.operations();
            judge.submit(game.session);
        }
    }
    (sequences, operations)
}
