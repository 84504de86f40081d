// The derivation as a library: document 01's rules as deriving.rs has them, against the program beside_cases, with every room, and
// with all that is left in what was lent. Much faster than the command program, and with requests that its lines can't spell.
use crate::ask::{Found, hex, start};
use crate::deriving;
use crate::reading::{Refused, WORDS};
use std::collections::BTreeMap;
use std::io::{BufRead, Write};

#[derive(Clone, Debug)]
pub struct Case {
    pub host: Vec<u8>,
    pub configured: Vec<u8>,
    pub excluded: Vec<u8>,
    pub ids: Vec<u64>,
    pub words: usize,
    pub list: usize,
    pub guest: usize,
}

// The most that the program can lend.
pub const MOST: usize = 70000;

pub struct Derivations {
    program: String,
    waiting: Vec<Case>,
    bytes: usize,
    pub answers: BTreeMap<u32, u64>,
    // The cases and their lines, where a sample is made.
    pub kept: Option<(Vec<u8>, String)>,
}

fn digest(all: impl Iterator<Item = u32>) -> u32 {
    all.fold(0u32, |h, w| h.wrapping_mul(16777619).wrapping_add(w).wrapping_add(1))
}

fn bytes(s: &[u8]) -> u32 {
    digest(s.iter().map(|&b| b as u32))
}

impl Case {
    pub fn new(host: &[u8], q: &deriving::Request) -> Case {
        let closed = |all: &[String]| all.iter().flat_map(|p| [p.as_bytes(), b"\0"].concat()).collect();
        Case {
            host: host.to_vec(),
            configured: closed(&q.configured),
            excluded: closed(&q.excluded),
            ids: q.ids.clone(),
            words: WORDS,
            list: MOST,
            guest: MOST,
        }
    }

    // A label, a rest behind the zeros, spans and runs it has none.
    fn spelt(&self) -> Vec<u8> {
        let kept = self.host.iter().rposition(|&b| b != 0).map_or(0, |i| i + 1);
        let numbers = [
            0,
            kept,
            self.host.len() - kept,
            0,
            self.configured.len(),
            self.excluded.len(),
            self.ids.len(),
            self.words,
            self.list,
            self.guest,
            0,
            0,
        ];
        let mut out: Vec<u8> = numbers.iter().flat_map(|&n| (n as u32).to_be_bytes()).collect();
        out.extend(&self.host[..kept]);
        out.extend(&self.configured);
        out.extend(&self.excluded);
        out.extend(self.ids.iter().flat_map(|n| n.to_be_bytes()));
        out
    }

    // The line that is expected, and the number of the refusal, or 0.
    pub fn expected(&self) -> (String, u32) {
        let answered = self.answered();
        let (mut list, mut guest, mut work) =
            (vec![0xa5u8; self.list], vec![0xa5u8; self.guest], vec![0xa5a5a5a5u32; self.words]);
        if self.words >= WORDS {
            work[..WORDS].fill(0);
        }
        let (says, number) = match answered {
            Ok(a) => {
                let text: Vec<u8> = a.list.iter().flat_map(|p| [p.as_bytes(), b"\0"].concat()).collect();
                list[..text.len()].copy_from_slice(&text);
                guest[..a.guest.len()].copy_from_slice(&a.guest);
                (format!("paths {} list {} guest {}", a.list.len(), text.len(), a.guest.len()), 0)
            }
            Err(r) => (format!("refused {} at {}", r.number, r.place), r.number),
        };
        let digests = [bytes(&list), bytes(&guest), digest(work.into_iter())];
        (format!("{says}, list {:08x}, guest {:08x}, work {:08x}\n", digests[0], digests[1], digests[2]), number)
    }

    pub fn answered(&self) -> Result<deriving::Answer, Refused> {
        deriving::library(&self.host, &self.configured, &self.excluded, &self.ids, self.words, self.list, self.guest)
    }
}

impl Derivations {
    pub fn new(program: &str) -> Derivations {
        Derivations {
            program: program.to_string(),
            waiting: Vec::new(),
            bytes: 0,
            answers: BTreeMap::new(),
            kept: None,
        }
    }

    pub fn ask(&mut self, case: Case, found: &mut Vec<Found>) {
        self.bytes += case.host.len() + case.configured.len() + case.excluded.len();
        self.waiting.push(case);
        if self.waiting.len() >= 5000 || self.bytes > 8 << 20 {
            self.flush(found);
        }
    }

    pub fn flush(&mut self, found: &mut Vec<Found>) {
        let waiting = std::mem::take(&mut self.waiting);
        self.bytes = 0;
        let (mut child, mut into, mut out) = start(&self.program);
        let all: Vec<u8> = waiting.iter().flat_map(Case::spelt).collect();
        if let Some(kept) = &mut self.kept {
            kept.0.extend(&all);
        }
        let writer = std::thread::spawn(move || into.write_all(&all).expect("the program takes its cases"));
        let mut line = String::new();
        for case in &waiting {
            let (expected, number) = case.expected();
            *self.answers.entry(number).or_default() += 1;
            if let Some(kept) = &mut self.kept {
                kept.1 += &expected;
            }
            line.clear();
            out.read_line(&mut line).expect("the program answers in text");
            if line != expected {
                let lists =
                    [&case.configured[..], &case.excluded[..]].map(|s| String::from_utf8_lossy(s).replace('\0', " "));
                let lent = (case.words, case.list, case.guest);
                let text = if found.len() < 5 {
                    format!(
                        "{}\nc {} x {} i {:?}, lent {lent:?}\nby the rules: {expected}this: {line}",
                        hex(&case.host),
                        lists[0],
                        lists[1],
                        case.ids
                    )
                } else {
                    String::new()
                };
                found.push(Found::new("derivations", text));
                if line.is_empty() {
                    break;
                }
            }
        }
        writer.join().unwrap();
        let _ = child.wait();
    }
}
