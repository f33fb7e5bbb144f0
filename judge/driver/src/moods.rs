//! Random interleavings, biased to the rare events: queues near a boundary, threads that sleep in the middle of an
//! operation while others go on, bursts of any length.
use crate::events::Events;
use crate::interleaved::{Interleaved, LARGEST};
use crate::places::PLACES;
use crate::random::Random;
use crate::session::{Queues, Session};
use asked::Operation;

/// The lengths at which something changes.
pub const LEVELS: [usize; 13] = [0, 1, 2, 32, 33, 63, 64, 65, 127, 128, 129, 255, 256];
pub const LIMITS: [usize; 5] = [1, 2, 3, 32, usize::MAX];

/// What the threads are up to for a while.
struct Mood {
    /// The length that each owner makes for.
    levels: Vec<usize>,
    /// How often each thread's turn comes; 0 is asleep.
    paces: Vec<usize>,
    /// The longest run of steps of a thread.
    burst: usize,
    /// Of a hundred operations, how many look at another queue.
    thieving: usize,
    until: usize,
}

impl Mood {
    fn new(random: &mut Random, queues: usize, calls: usize) -> Mood {
        let level = |random: &mut Random| match random.below(10) {
            0..=3 => random.below(4),
            4 => random.of(&LEVELS),
            5 => 30 + random.below(6),
            6 | 7 => 62 + random.below(5),
            8 => 126 + random.below(5),
            _ => random.below(60),
        };
        let until = calls + 10 + random.below(200);
        // All at once on nearly empty queues.
        if random.one_in(3) {
            let levels = (0..queues).map(|_| 1 + random.below(2)).collect();
            return Mood { levels, paces: vec![1; queues], burst: 2, thieving: 50, until };
        }
        let mut paces: Vec<usize> = (0..queues).map(|_| random.of(&[0, 1, 1, 4, 16])).collect();
        paces[random.below(queues)] = 4;
        Mood {
            levels: (0..queues).map(|_| level(random)).collect(),
            paces,
            burst: random.of(&[1, 2, 3, 8, 30]),
            thieving: random.of(&[10, 30, 50, 70, 90]),
            until,
        }
    }

    fn turn(&self, random: &mut Random) -> usize {
        let mut left = random.below(self.paces.iter().sum());
        self.paces
            .iter()
            .position(|&pace| {
                let here = left < pace;
                left = left.saturating_sub(pace);
                here
            })
            .expect("a thread that is awake")
    }
}

/// A random operation for an idle thread that makes for this length.
pub fn choose(
    random: &mut Random,
    thread: usize,
    queues: &Queues,
    level: usize,
    thieving: usize,
    job: u64,
) -> Operation {
    let (count, length) = (queues.len(), queues[thread].0.length());
    if random.below(100) < thieving {
        let own = count == 1 || random.one_in(25);
        let source = if own { thread } else { (thread + 1 + random.below(count - 1)) % count };
        let limit = random.of(&LIMITS);
        // A batch from a queue of at most 256 jobs takes at most 128.
        let fits = length + limit.min(LARGEST / 2) <= LARGEST;
        match random.below(16) {
            0..=5 if fits => Operation::Batch(source, limit),
            6..=11 if fits => Operation::BatchAndPop(source, limit),
            12 => Operation::LengthOf(source),
            _ => Operation::Steal(source),
        }
    } else {
        let push = if random.one_in(8) { random.one_in(2) } else { length < level };
        match push {
            _ if random.one_in(30) => Operation::Length,
            true if length < LARGEST || random.one_in(4) => Operation::Push(job),
            _ => Operation::Pop,
        }
    }
}

/// A session of about so many calls.
pub fn session(seed: u64, calls: usize, events: &mut Events) -> Session {
    let mut random = Random::new(seed);
    let lifo: Vec<bool> = (0..2 + random.below(3)).map(|_| random.one_in(2)).collect();
    let mut game = Interleaved::new(format!("interleaved {}", seed), PLACES, &lifo, events);
    let mut job = 0;
    let mut mood = Mood::new(&mut random, lifo.len(), 0);
    while game.session.calls() < calls && !game.parted {
        if game.session.calls() >= mood.until {
            mood = Mood::new(&mut random, lifo.len(), game.session.calls());
            open(&mut game, &mut random, &mut mood.levels, &mut job);
        }
        let thread = mood.turn(&mut random);
        for _ in 0..1 + random.below(mood.burst) {
            if game.is_idle(thread) {
                job += 1;
                let level = mood.levels[thread];
                let operation = choose(&mut random, thread, &game.queues, level, mood.thieving, job);
                game.begin(thread, operation);
            } else {
                game.step(thread);
            }
        }
    }
    game.end()
}

/// Brings a queue to where something is about to happen. Whoever is in the middle of an operation sleeps through it.
fn open(game: &mut Interleaved, random: &mut Random, levels: &mut [usize], job: &mut u64) {
    let owner = random.below(levels.len());
    let here = [levels[owner]];
    let way: &[usize] = match random.below(200) {
        0..=29 => &here,
        // A larger ring with few enough jobs that the next pops shrink it.
        30..=44 => &[65, 33],
        45 => &[129, 65],
        46 => &[256],
        // A push that does not fit.
        47 => &[257],
        48 => return fall_behind(game, owner, (owner + 1) % levels.len(), job),
        _ => &[],
    };
    for level in way {
        reach(game, owner, *level, job);
        levels[owner] = *level;
    }
}

/// A thief loads front and sleeps, while the owner pushes and pops more than its largest ring holds.
fn fall_behind(game: &mut Interleaved, owner: usize, thief: usize, job: &mut u64) {
    reach(game, thief, LARGEST / 2, job);
    game.begin(thief, Operation::Batch(owner, usize::MAX));
    game.step(thief);
    for level in [130, 0, 130] {
        reach(game, owner, level, job);
    }
}

/// The owner pushes or pops, alone, until its queue has this length. The others stand where they are.
fn reach(game: &mut Interleaved, owner: usize, level: usize, job: &mut u64) {
    game.complete(owner);
    while !game.parted && game.queues[owner].0.length() != level {
        *job += 1;
        let more = game.queues[owner].0.length() < level;
        game.begin(owner, if more { Operation::Push(*job) } else { Operation::Pop });
        game.complete(owner);
    }
}
