//! A session of the program `play` with the lines that it must print, and the comparison.
use crate::places::Places;
use asked::{Answer, Operation, Shown};
use std::fs::{self, File};
use std::path::PathBuf;
use std::process::{Child, Command, Stdio};

/// The queues as they stand, each with its ring number.
pub type Queues = Vec<(Shown, usize)>;

pub struct Session {
    name: String,
    setup: String,
    /// Thread, kind, source, operand.
    calls: Vec<[u64; 4]>,
    /// A line for each call. One with no tab is compared by its answer alone.
    expected: Vec<String>,
}

impl Session {
    pub fn new(name: String, places: usize, lifo: &[bool]) -> Session {
        let flavours: Vec<&str> = lifo.iter().map(|&lifo| if lifo { " 1" } else { " 0" }).collect();
        let setup = format!("{} {}{}\n", places, lifo.len(), flavours.concat());
        Session { name, setup, calls: Vec::new(), expected: Vec::new() }
    }

    pub fn begin(&mut self, thread: usize, operation: Operation, line: String) {
        let (kind, source, operand) = match operation {
            Operation::Push(job) => (1, 0, job),
            Operation::Pop => (2, 0, 0),
            Operation::Length => (3, 0, 0),
            Operation::LengthOf(source) => (4, source, 0),
            Operation::Steal(source) => (5, source, 0),
            Operation::Batch(source, limit) => (6, source, limit as u64),
            Operation::BatchAndPop(source, limit) => (7, source, limit as u64),
        };
        self.calls.push([thread as u64, kind, source as u64, operand]);
        self.expected.push(line);
    }

    /// Gives the number of the call.
    pub fn step(&mut self, thread: usize, line: String) -> usize {
        self.calls.push([thread as u64, 0, 0, 0]);
        self.expected.push(line);
        self.calls.len() - 1
    }

    pub fn calls(&self) -> usize {
        self.calls.len()
    }

    pub fn steps(&self) -> u64 {
        self.calls.iter().filter(|call| call[1] == 0).count() as u64
    }

    /// How many operations were begun.
    pub fn operations(&self) -> u64 {
        self.calls() as u64 - self.steps()
    }

    /// Ends the session at a call, which answers this and leaves the queues as the line has them.
    pub fn cut(&mut self, call: usize, answer: &str) {
        self.calls.truncate(call + 1);
        self.expected.truncate(call + 1);
        let queues = self.expected[call].find('\t').expect("a line with queues");
        self.expected[call].replace_range(..queues, answer);
    }

    pub fn text(&self) -> String {
        self.calls.iter().fold(self.setup.clone(), |text, call| text + &words(call) + "\n")
    }

    pub fn lines(&self) -> String {
        self.expected.iter().map(|line| line.clone() + "\n").collect()
    }
}

fn words(call: &[u64; 4]) -> String {
    format!("{} {} {} {}", call[0], call[1], call[2], call[3])
}

/// An answer as `play` prints it. A length's signed difference is not the crate's to say.
pub fn told(answer: Answer, difference: i64) -> String {
    match answer {
        Answer::Done => "done".to_string(),
        Answer::Job(job) => format!("job {}", job),
        Answer::Nothing => "nothing".to_string(),
        Answer::Empty => "empty".to_string(),
        Answer::Retry => "retry".to_string(),
        Answer::Moved => "moved".to_string(),
        Answer::Took(job) => format!("took {}", job),
        Answer::Length(_) => format!("length {} {}", difference, difference.max(0)),
    }
}

/// What `play` prints behind an answer.
pub fn line(answer: &str, queues: &Queues, places: &Places) -> String {
    let mut line = answer.to_string();
    for (shown, ring) in queues {
        let Shown { front, back, capacity, .. } = shown;
        line += &format!("\t{} {} {} {} {}", front, back, ring, places.of(*ring), capacity);
    }
    line
}

/// Plays sessions on the program, one while the next is being made.
pub struct Judge {
    play: PathBuf,
    folder: PathBuf,
    playing: Option<(Child, Session)>,
}

impl Judge {
    /// The program is named by the variable PLAY; files go to the folder named by JUDGE_FILES.
    pub fn new() -> Judge {
        let named =
            |variable| PathBuf::from(std::env::var_os(variable).unwrap_or_else(|| panic!("{} is not set", variable)));
        Judge { play: named("PLAY"), folder: named("JUDGE_FILES"), playing: None }
    }

    pub fn submit(&mut self, session: Session) {
        self.finish();
        self.playing = Some((self.start(&session.text()), session));
    }

    fn start(&self, text: &str) -> Child {
        fs::write(self.folder.join("session"), text).unwrap();
        let input = File::open(self.folder.join("session")).unwrap();
        let output = File::create(self.folder.join("output")).unwrap();
        let child = Command::new(&self.play).stdin(input).stdout(output).stderr(Stdio::inherit()).spawn();
        child.expect("play does not start")
    }

    /// What `play` prints for a session.
    pub fn printed(&self, text: &str) -> String {
        let status = self.start(text).wait().unwrap();
        assert!(status.success(), "play ended with {}", status);
        fs::read_to_string(self.folder.join("output")).unwrap()
    }

    /// Waits for the last session and compares it. A difference ends the run.
    pub fn finish(&mut self) {
        let (mut child, session) = match self.playing.take() {
            Some(playing) => playing,
            None => return,
        };
        let status = child.wait().unwrap();
        let output = fs::read_to_string(self.folder.join("output")).unwrap();
        let mut lines = output.lines();
        for (call, expected) in session.expected.iter().enumerate() {
            let printed = lines.next().unwrap_or("(no line)");
            let compared = if expected.contains('\t') { printed } else { printed.split('\t').next().unwrap() };
            if compared != expected {
                self.fail(session, call, printed);
            }
        }
        assert!(
            status.success() && lines.next().is_none(),
            "{}: play ended with {} or printed too much",
            session.name,
            status
        );
    }

    fn fail(&self, mut session: Session, call: usize, printed: &str) -> ! {
        println!("DIFFERENCE in {}, call {}: {}", session.name, call + 1, words(&session.calls[call]));
        println!("  the crate: {}", session.expected[call].replace('\t', " | "));
        println!("  play:      {}", printed.replace('\t', " | "));
        session.calls.truncate(call + 1);
        session.expected.truncate(call + 1);
        fs::write(self.folder.join("failed.session"), session.text()).unwrap();
        fs::write(self.folder.join("failed.lines"), session.lines()).unwrap();
        println!("  the calls up to there are in {}", self.folder.join("failed.session").display());
        std::process::exit(1);
    }
}
