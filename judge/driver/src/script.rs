//! A session file, as `play` reads it, played on the crate's scripted copy.
use crate::events::Events;
use crate::interleaved::Interleaved;
use crate::session::Session;
use asked::{Answer, Operation};

/// What is not comment.
pub fn numbers(text: &str) -> Vec<u64> {
    let words = text.lines().flat_map(|line| line.split('#').next().unwrap().split_whitespace());
    words.map(|word| word.parse().expect("a number")).collect()
}

/// The first so many calls, each with what the crate answers; and the session, which goes on until all queues are empty or
/// the machine lacks a ring.
pub fn play(text: &str, calls: usize) -> (Session, Vec<(String, Option<Answer>)>) {
    let numbers = numbers(text);
    let queues = numbers[1] as usize;
    let lifo: Vec<bool> = numbers[2..2 + queues].iter().map(|&flavour| flavour == 1).collect();
    let mut events = Events::default();
    let mut game = Interleaved::new("script".to_string(), numbers[0] as usize, &lifo, &mut events);
    let mut answers = Vec::new();
    for call in numbers[2 + queues..].chunks_exact(4).take(calls) {
        if game.parted {
            break;
        }
        let (thread, source, operand) = (call[0] as usize, call[2] as usize, call[3]);
        let operation = match call[1] {
            0 => None,
            1 => Some(Operation::Push(operand)),
            2 => Some(Operation::Pop),
            3 => Some(Operation::Length),
            4 => Some(Operation::LengthOf(source)),
            5 => Some(Operation::Steal(source)),
            6 => Some(Operation::Batch(source, operand as usize)),
            7 => Some(Operation::BatchAndPop(source, operand as usize)),
            kind => panic!("no kind {}", kind),
        };
        let answer = match operation {
            Some(operation) => {
                game.begin(thread, operation);
                None
            }
            None => game.step(thread),
        };
        answers.push((format!("{} {} {} {}", call[0], call[1], call[2], call[3]), answer));
    }
    (game.end(), answers)
}
