//! Plays sessions on the crate and on the program `play`, and fails at the first difference.
mod events;
mod interleaved;
mod moods;
mod places;
mod players;
mod random;
mod script;
mod session;
mod tour;
mod whole;
mod witness;

use events::{boundaries, rare, Events};
use session::Judge;
use std::fs;
use std::path::PathBuf;

const USAGE: &str =
    "driver whole SEED OPERATIONS | exhaustive LENGTH | interleaved SEED STEPS | tour FILE | stored FOLDER | show FILE";

fn main() {
    let words: Vec<String> = std::env::args().skip(1).collect();
    let number = |at: usize| words.get(at).and_then(|word| word.parse::<u64>().ok()).expect(USAGE);
    match words.first().map(String::as_str) {
        Some("whole") => whole_operations(number(1), number(2)),
        Some("exhaustive") => exhaustive(number(1) as u32),
        Some("interleaved") => interleavings(number(1), number(2)),
        Some("tour") => tour(words.get(1).expect(USAGE)),
        Some("stored") => stored(words.get(1).expect(USAGE)),
        Some("show") => show(words.get(1).expect(USAGE)),
        _ => panic!("{}", USAGE),
    }
}

fn whole_operations(first: u64, wanted: u64) {
    let mut judge = Judge::new();
    let mut events = Events::default();
    let (mut seed, mut operations) = (first, 0);
    while operations < wanted {
        let session = whole::session(seed, 4000, &mut events);
        operations += session.operations();
        judge.submit(session);
        seed += 1;
    }
    judge.finish();
    println!("{} whole operations in the sessions {} to {}: no difference", operations, first, seed - 1);
    events.demand(boundaries());
}

fn exhaustive(longest: u32) {
    let mut judge = Judge::new();
    for length in 1..=longest {
        for start in [(0, 0), (2, 1), (5, 3)] {
            let (sequences, operations) = whole::exhaustive(&mut judge, length, start);
            println!(
                "all {} sequences of {} operations from {:?} jobs, {} operations in all",
                sequences, length, start, operations
            );
        }
    }
    judge.finish();
    println!("all sequences of up to {} operations: no difference", longest);
}

fn interleavings(first: u64, wanted: u64) {
    let mut judge = Judge::new();
    let mut events = Events::default();
    let (mut seed, mut steps, mut operations) = (first, 0, 0);
    while steps < wanted {
        let session = moods::session(seed, 10_000, &mut events);
        steps += session.steps();
        operations += session.operations();
        judge.submit(session);
        seed += 1;
    }
    judge.finish();
    events.print();
    println!("{} steps of {} operations in the sessions {} to {}: no difference", steps, operations, first, seed - 1);
    events.demand(rare());
}

/// Plays the tour, and keeps it as FILE.session with the crate's answers as FILE.lines.
fn tour(file: &str) {
    let mut events = Events::default();
    let session = tour::session(&mut events);
    let (steps, operations) = (session.steps(), session.operations());
    let title =
        "# 01's games, but for the 9 of C11, and every rare event, but for a batch's 8, with the crate's answers: made by judge/run tour.\n";
    fs::write(format!("{}.session", file), title.to_string() + &session.text()).unwrap();
    fs::write(format!("{}.lines", file), session.lines()).unwrap();
    let mut judge = Judge::new();
    judge.submit(session);
    judge.finish();
    println!("the tour: {} steps of {} operations, no difference", steps, operations);
    // A session ends at its first answer 8, and the tour ends with that of a push.
    events.demand(rare().into_iter().filter(|name| name != "answer 8 of a batch").collect());
}

/// Holds the stored sessions, each FOLDER/NAME.session with its lines in NAME.lines, to the crate. Those with a refusal are
/// not the crate's to judge, nor is what comes behind an 8, a 9 or a skipped shrink.
fn stored(folder: &str) {
    let files = fs::read_dir(folder).expect(folder).map(|file| file.unwrap().path());
    let mut files: Vec<PathBuf> = files.filter(|file| file.extension().map_or(false, |end| end == "session")).collect();
    files.sort();
    let (mut judged, mut others) = (0, 0);
    for file in files {
        let text = fs::read_to_string(&file).unwrap();
        let lines = fs::read_to_string(file.with_extension("lines")).unwrap();
        let turned_away = |line: &str| ["refused", "setup", "bad input"].iter().any(|start| line.starts_with(start));
        if lines.lines().any(turned_away) {
            others += 1;
            continue;
        }
        let calls = lines.lines().position(|line| line.starts_with("gave-up 8")).map_or(usize::MAX, |call| call + 1);
        let session = script::play(&text, calls).0;
        for (call, (line, expected)) in lines.lines().zip(session.lines().lines()).enumerate() {
            if line != expected {
                println!("DIFFERENCE in {}, line {}", file.display(), call + 1);
                println!("  the crate: {}", expected.replace('\t', " | "));
                println!("  stored:    {}", line.replace('\t', " | "));
                std::process::exit(1);
            }
        }
        judged += 1;
    }
    println!("{} stored sessions have the crate's answers; {} are not the crate's to judge", judged, others);
}

/// Plays a session file on both, and prints what each says. `play` may go on where the two have parted.
fn show(file: &str) {
    let text = fs::read_to_string(file).expect(file);
    let printed = Judge::new().printed(&text);
    for ((call, answer), line) in script::play(&text, usize::MAX).1.iter().zip(printed.lines()) {
        let answer = answer.map_or("working".to_string(), |answer| format!("{:?}", answer));
        println!("{:<24} crate: {:<12} play: {}", call, answer, line.replace('\t', " | "));
    }
}
