//! A session's queues and the threads that own them.
use asked::{Operation, Shown};
use baton::{rings, Report, Seat, Table};
use scripted::{new_worker, perform, shown, Stealer, Worker};
use std::sync::Arc;
use std::thread::{self, JoinHandle};

/// New queues, ring q for queue q. Those of the last session must be gone.
pub fn new_queues(lifo: &[bool]) -> (Vec<Worker<u64>>, Vec<Stealer<u64>>) {
    rings::forget();
    let workers: Vec<_> = lifo.iter().map(|&lifo| new_worker(lifo)).collect();
    let stealers = workers.iter().map(Worker::stealer).collect();
    (workers, stealers)
}

/// A queue as it stands, with the number of its ring.
pub fn shown_with_ring(queue: &Stealer<u64>) -> (Shown, usize) {
    let shown = shown(queue);
    (shown, rings::number(shown.cells))
}

/// Threads that each own a queue and take a step when told.
pub struct Players {
    table: Arc<Table>,
    threads: Vec<JoinHandle<()>>,
    queues: Vec<Stealer<u64>>,
}

impl Players {
    pub fn new(lifo: &[bool]) -> Players {
        let (workers, queues) = new_queues(lifo);
        let table = Arc::new(Table::new());
        let threads = workers.into_iter().enumerate().map(|(number, worker)| {
            let seat = Seat { table: table.clone(), number };
            let queues = queues.clone();
            thread::spawn(move || serve(seat, worker, queues))
        });
        let threads = threads.collect();
        Players { table, threads, queues }
    }

    /// The thread runs up to its first shared access. It must be idle.
    pub fn begin(&self, thread: usize, operation: Operation) {
        *self.table.order.lock().unwrap() = Some(operation);
        self.table.run(thread, self.threads[thread].thread());
    }

    /// One shared access, and what follows up to the next. The thread must be busy.
    pub fn step(&self, thread: usize) -> Report {
        self.table.run(thread, self.threads[thread].thread())
    }

    pub fn shown(&self) -> Vec<(Shown, usize)> {
        self.queues.iter().map(shown_with_ring).collect()
    }

    /// Every thread must be idle.
    pub fn leave(self) {
        for (number, thread) in self.threads.into_iter().enumerate() {
            self.table.run(number, thread.thread());
            thread.join().unwrap();
        }
    }
}

/// A thread's life: operations in the order given, until there is none.
fn serve(seat: Seat, worker: Worker<u64>, queues: Vec<Stealer<u64>>) {
    seat.take();
    loop {
        seat.wait();
        let order = seat.table.order.lock().unwrap().take();
        match order {
            Some(operation) => seat.answer(perform(operation, &worker, &queues)),
            None => break,
        }
        seat.hand_back();
    }
    seat.hand_back();
}
