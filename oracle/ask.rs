// Asking the programs of this repository: questions go to standard input, answers come back from standard output.
use std::io::{BufRead, BufReader, Write};
use std::process::{Child, ChildStdin, ChildStdout, Command, Stdio};
use std::sync::OnceLock;
use std::time::Instant;

// A difference between the two sides, as it is shown.
pub struct Found {
    pub kind: &'static str,
    pub text: String,
}

// When the first difference came up.
pub static FIRST: OnceLock<Instant> = OnceLock::new();

impl Found {
    pub fn new(kind: &'static str, text: String) -> Found {
        FIRST.get_or_init(Instant::now);
        Found { kind, text }
    }
}

pub fn start(program: &str) -> (Child, ChildStdin, BufReader<ChildStdout>) {
    let mut child =
        Command::new(program).stdin(Stdio::piped()).stdout(Stdio::piped()).spawn().expect("the program starts");
    let into = child.stdin.take().unwrap();
    let out = BufReader::with_capacity(1 << 16, child.stdout.take().unwrap());
    (child, into, out)
}

// A question of crates/oracle_cases: its two lines.
#[derive(Clone)]
pub struct Question {
    pub op: u8,
    pub a: u64,
    pub b: u64,
    pub name: Vec<u8>,
    pub val: Vec<u8>,
}

pub fn hex(s: &[u8]) -> String {
    s.iter().map(|b| format!("{b:02x}")).collect()
}

impl Question {
    pub fn lines(&self) -> String {
        let (n, v) = (2 * self.name.len(), 2 * self.val.len());
        format!(
            "{} {:016x} {:016x} {n:04x} {v:04x}\n{}{}\n",
            self.op as char,
            self.a,
            self.b,
            hex(&self.name),
            hex(&self.val)
        )
    }
}

// The program oracle_cases, questions that wait for it, and what the Rust answers to each.
pub struct Cases {
    child: Child,
    into: Option<ChildStdin>,
    out: BufReader<ChildStdout>,
    waiting: Vec<(String, Option<String>)>,
    // All questions and answers, where a sample is made.
    pub kept: Option<Vec<(String, Option<String>)>>,
    pub asked: u64,
}

impl Cases {
    pub fn new(program: &str) -> Cases {
        let (child, into, out) = start(program);
        Cases { child, into: Some(into), out, waiting: Vec::new(), kept: None, asked: 0 }
    }

    pub fn ask(&mut self, q: &Question, expected: String) {
        self.put(q, Some(expected));
    }

    // A question that has no answer.
    pub fn lent(&mut self, q: &Question) {
        self.put(q, None);
    }

    fn put(&mut self, q: &Question, expected: Option<String>) {
        let lines = q.lines();
        if let Some(kept) = &mut self.kept {
            kept.push((lines.clone(), expected.clone()));
        }
        self.waiting.push((lines, expected));
    }

    pub fn full(&self) -> bool {
        self.waiting.len() >= 20000
    }

    // Asks what waits. Of differences the first few are kept, each with the questions since buffers were last lent.
    pub fn flush(&mut self, kind: &'static str, found: &mut Vec<Found>) {
        let waiting = std::mem::take(&mut self.waiting);
        self.asked += waiting.iter().filter(|w| w.1.is_some()).count() as u64;
        let mut into = self.into.take().unwrap();
        let all: String = waiting.iter().map(|w| w.0.as_str()).collect();
        let writer = std::thread::spawn(move || {
            into.write_all(all.as_bytes()).expect("the program takes its questions");
            into.flush().unwrap();
            into
        });
        let mut line = String::new();
        for (i, (_, expected)) in waiting.iter().enumerate() {
            let Some(expected) = expected else { continue };
            line.clear();
            self.out.read_line(&mut line).expect("the program answers in text");
            if line.trim_end() != expected {
                let from = (0..=i).rev().find(|&k| waiting[k].0.starts_with('l')).unwrap_or(i);
                let from = if waiting[i].0.starts_with(['n', 'm']) { i } else { from };
                let asked: String = waiting[from..=i].iter().map(|w| w.0.as_str()).collect();
                if found.len() < 5 {
                    found.push(Found::new(kind, format!("{asked}the Rust: {expected}\nthis:     {line}")));
                } else {
                    found.push(Found::new(kind, String::new()));
                }
                if line.is_empty() {
                    break;
                }
            }
        }
        self.into = Some(writer.join().unwrap());
    }

    pub fn end(mut self) {
        drop(self.into.take());
        let _ = self.child.wait();
    }
}
