// The judge's questions in the crate's terms. Included behind deque.rs by both libraries, so that both are asked alike.

pub fn new_worker(lifo: bool) -> Worker<u64> {
    if lifo {
        Worker::new_lifo()
    } else {
        Worker::new_fifo()
    }
}

pub fn perform(operation: asked::Operation, own: &Worker<u64>, queues: &[Stealer<u64>]) -> asked::Answer {
    use asked::{Answer, Operation};
    fn told(steal: Steal<u64>) -> Answer {
        match steal {
            Steal::Empty => Answer::Empty,
            Steal::Retry => Answer::Retry,
            Steal::Success(job) => Answer::Took(job),
        }
    }
    match operation {
        Operation::Push(job) => {
            own.push(job);
            Answer::Done
        }
        Operation::Pop => match own.pop() {
            Some(job) => Answer::Job(job),
            None => Answer::Nothing,
        },
        Operation::Length => Answer::Length(own.len()),
        Operation::LengthOf(source) => Answer::Length(queues[source].len()),
        Operation::Steal(source) => told(queues[source].steal()),
        Operation::Batch(source, limit) => match queues[source].steal_batch_with_limit(own, limit) {
            Steal::Empty => Answer::Empty,
            Steal::Retry => Answer::Retry,
            Steal::Success(()) => Answer::Moved,
        },
        Operation::BatchAndPop(source, limit) => told(queues[source].steal_batch_with_limit_and_pop(own, limit)),
    }
}

pub fn shown(queue: &Stealer<u64>) -> asked::Shown {
    let ring = unsafe { *queue.inner.buffer.load(Ordering::Relaxed, epoch::unprotected()).deref() };
    asked::Shown {
        front: queue.inner.front.load(Ordering::Relaxed),
        back: queue.inner.back.load(Ordering::Relaxed),
        capacity: ring.cap,
        cells: ring.ptr as usize,
    }
}
