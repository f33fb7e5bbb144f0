//! The baton: a scripted thread makes one shared access each time it is handed it, runs on to its next access or to the
//! end of its operation, and hands it back.
pub mod rings;

use asked::{Answer, Operation};
use std::cell::{Cell, RefCell};
use std::sync::atomic::{AtomicUsize, Ordering};
use std::sync::{Arc, Mutex};
use std::thread::{self, Thread};

/// What a step touched.
#[derive(Clone, Copy, Debug, PartialEq, Eq)]
pub enum Access {
    Load,
    Store,
    Add,
    Exchange { won: bool },
    LoadRing,
    SwapRing,
    Read { ring: usize, written: bool },
    Write,
    Copy,
}

/// A ring that a step allocated.
#[derive(Clone, Copy, Debug, PartialEq, Eq)]
pub struct Claimed {
    pub ring: usize,
    pub capacity: usize,
}

/// What a step did; it answers if it was the operation's last.
#[derive(Clone, Copy, Debug, Default)]
pub struct Report {
    pub access: Option<Access>,
    pub claimed: Option<Claimed>,
    pub answer: Option<Answer>,
}

const DRIVER: usize = usize::MAX;

/// Where the baton is, and what its holders tell each other.
pub struct Table {
    turn: AtomicUsize,
    driver: Thread,
    pub order: Mutex<Option<Operation>>,
    report: Mutex<Report>,
}

impl Table {
    pub fn new() -> Table {
        Table {
            turn: AtomicUsize::new(DRIVER),
            driver: thread::current(),
            order: Mutex::new(None),
            report: Mutex::new(Report::default()),
        }
    }

    /// The driver hands the baton to a thread, and has it back when this returns.
    pub fn run(&self, number: usize, thread: &Thread) -> Report {
        *self.report.lock().unwrap() = Report::default();
        self.turn.store(number, Ordering::Release);
        thread.unpark();
        self.wait(DRIVER);
        *self.report.lock().unwrap()
    }

    fn wait(&self, number: usize) {
        while self.turn.load(Ordering::Acquire) != number {
            thread::park();
        }
    }
}

/// A scripted thread's seat at the table.
#[derive(Clone)]
pub struct Seat {
    pub table: Arc<Table>,
    pub number: usize,
}

thread_local! {
    static SEAT: RefCell<Option<Seat>> = RefCell::new(None);
    static UNSCRIPTED: Cell<usize> = Cell::new(0);
}

impl Seat {
    pub fn take(&self) {
        SEAT.with(|seat| *seat.borrow_mut() = Some(self.clone()));
    }

    pub fn wait(&self) {
        self.table.wait(self.number);
    }

    pub fn hand_back(&self) {
        self.table.turn.store(DRIVER, Ordering::Release);
        self.table.driver.unpark();
    }

    pub fn answer(&self, answer: Answer) {
        self.table.report.lock().unwrap().answer = Some(answer);
    }
}

/// A shared access. A thread with no seat makes it at once, and it is counted.
pub fn shared<R>(act: impl FnOnce() -> (R, Access)) -> R {
    SEAT.with(|seat| match &*seat.borrow() {
        Some(seat) => {
            seat.hand_back();
            seat.wait();
            let (result, access) = act();
            seat.table.report.lock().unwrap().access = Some(access);
            result
        }
        None => {
            UNSCRIPTED.with(|count| count.set(count.get() + 1));
            act().0
        }
    })
}

/// How many shared accesses this thread has made with no seat.
pub fn unscripted() -> usize {
    UNSCRIPTED.with(|count| count.get())
}

fn note_claim(ring: usize, capacity: usize) {
    SEAT.with(|seat| {
        if let Some(seat) = &*seat.borrow() {
            seat.table.report.lock().unwrap().claimed = Some(Claimed { ring, capacity });
        }
    })
}
