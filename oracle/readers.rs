// The reader: document 01's rules as reading.rs has them, against the program reader_cases.
use crate::ask::{Found, hex, start};
use crate::drawing::Draw;
use crate::reading::{self, WORDS};
use crate::trees::{self, Layout, Tree};
use std::collections::BTreeMap;
use std::io::{BufRead, Write};
use std::time::Instant;

const FILL: u32 = 0xa5a5a5a5;

#[derive(Default)]
pub struct Counts {
    pub read: u64,
    pub refused: BTreeMap<u32, u64>,
}

pub struct Readers {
    program: String,
    waiting: Vec<(Vec<u8>, usize)>,
    bytes: usize,
    pub counts: Counts,
}

fn digest(words: impl Iterator<Item = u32>) -> u32 {
    words.fold(0u32, |h, w| h.wrapping_mul(16777619).wrapping_add(w).wrapping_add(1))
}

impl Readers {
    pub fn new(program: &str) -> Readers {
        Readers { program: program.to_string(), waiting: Vec::new(), bytes: 0, counts: Counts::default() }
    }

    fn expected(&mut self, blob: &[u8], words: usize) -> String {
        let (says, mut work) = match reading::read(blob, words) {
            Ok(nodes) => {
                self.counts.read += 1;
                (format!("nodes {}", nodes.len()), reading::table(&nodes))
            }
            Err(r) => {
                *self.counts.refused.entry(r.number).or_default() += 1;
                (format!("refused {} at {}", r.number, r.place), Vec::new())
            }
        };
        if words < WORDS {
            work = vec![FILL; words];
        } else {
            work.resize(WORDS, 0);
            work.resize(words, FILL);
        }
        format!(": {says}, work {:08x}\n", digest(work.into_iter()))
    }

    pub fn ask(&mut self, blob: Vec<u8>, words: usize, found: &mut Vec<Found>) {
        self.bytes += blob.len();
        self.waiting.push((blob, words));
        if self.waiting.len() >= 20000 || self.bytes > 8 << 20 {
            self.flush(found);
        }
    }

    pub fn flush(&mut self, found: &mut Vec<Found>) {
        let waiting = std::mem::take(&mut self.waiting);
        self.bytes = 0;
        let (mut child, mut into, mut out) = start(&self.program);
        let mut all: Vec<u8> = Vec::new();
        for (blob, words) in &waiting {
            let kept = blob.iter().rposition(|&b| b != 0).map_or(0, |i| i + 1);
            for n in [0, kept, blob.len() - kept, *words] {
                all.extend((n as u32).to_be_bytes());
            }
            all.extend(&blob[..kept]);
        }
        let writer = std::thread::spawn(move || into.write_all(&all).expect("the program takes its cases"));
        let mut line = String::new();
        for (blob, words) in &waiting {
            let expected = self.expected(blob, *words);
            line.clear();
            out.read_line(&mut line).expect("the program answers in text");
            if line != expected {
                let text = if found.len() < 5 {
                    format!("{} with {words} words\nby the rules{expected}this{line}", hex(blob))
                } else {
                    String::new()
                };
                found.push(Found::new("reader", text));
                if line.is_empty() {
                    break;
                }
            }
        }
        writer.join().unwrap();
        let _ = child.wait();
    }
}

const STRINGS: &[u8] = b"p\0phandle\0linux,phandle\0#clock-cells\0";

fn wrap(structure: &[u32], strings: &[u8]) -> Vec<u8> {
    let size = 4 * structure.len() as u32;
    let mut out: Vec<u8> = Vec::new();
    let mut put = |v: u32| out.extend(v.to_be_bytes());
    for v in [
        0xd00dfeed,
        56 + size + strings.len() as u32,
        56,
        56 + size,
        40,
        17,
        16,
        0,
        strings.len() as u32,
        size,
        0,
        0,
        0,
        0,
    ] {
        put(v);
    }
    for &v in structure {
        put(v);
    }
    out.extend(strings);
    out
}

const LETTERS: [u32; 7] = [1, 2, 3, 4, 9, 0, 0x61000000];

// Every structure of up to `long` words out of few: the tokens, a name, an offset; and the same words inside a root. Answers how
// long they were when the time was over.
pub fn structures(r: &mut Readers, found: &mut Vec<Found>, long: u32, until: Instant) -> u32 {
    for n in 0..=long {
        for code in 0..LETTERS.len().pow(n) {
            let s: Vec<u32> = (0..n).map(|k| LETTERS[code / LETTERS.len().pow(k) % LETTERS.len()]).collect();
            r.ask(wrap(&s, STRINGS), WORDS, found);
            r.ask(wrap(&[&[1, 0], &s[..], &[2, 9]].concat(), STRINGS), WORDS, found);
            if code % 1000 == 999 && Instant::now() > until {
                r.flush(found);
                return n - 1;
            }
        }
        r.flush(found);
    }
    long
}

// A small blob that has each kind of item, and a larger.
fn good() -> Vec<Vec<u8>> {
    let small = Tree::default()
        .with("#clock-cells", &[1])
        .child(Tree::named("a@1").with("phandle", &[7]).with("linux,phandle", &[7]))
        .child(Tree::named("b").with("p", &[1]).child(Tree::named("c")));
    let layout = Layout { nops: true, gap: 4, reservations: 2, endings: true, behind: 3 };
    vec![
        trees::blob(&small, Layout::default()),
        trees::blob(&small, layout),
        trees::blob(&crate::guests::bench(), Layout::default()),
        roomy(&small),
    ]
}

// The blocks apart, with zeros between: a wrong offset or size then meets nothing else that is wrong.
fn roomy(t: &Tree) -> Vec<u8> {
    let plain = trees::blob(t, Layout::default());
    let word = |at: usize| u32::from_be_bytes(plain[at..at + 4].try_into().unwrap());
    let strings = word(12) as usize;
    let mut out = [&plain[..56], &[0; 64], &plain[56..strings], &[0; 32], &plain[strings..], &[0; 32]].concat();
    for (at, more) in [(4, 128), (8, 64), (12, 96)] {
        out[at..at + 4].copy_from_slice(&(word(at) + more).to_be_bytes());
    }
    out
}

// Each length, each number of the header, each word and each byte changed in turn.
pub fn damaged(r: &mut Readers, found: &mut Vec<Found>) {
    for blob in good() {
        for n in 0..=blob.len() {
            r.ask(blob[..n].to_vec(), WORDS, found);
        }
        for words in [0, 1, WORDS - 1, WORDS, WORDS + 1, WORDS + 16] {
            r.ask(blob.clone(), words, found);
            r.ask(Vec::new(), words, found);
        }
        for field in 0..10 {
            let old = u32::from_be_bytes(blob[4 * field..4 * field + 4].try_into().unwrap());
            let near = (-20..=20).map(|k| old.wrapping_add_signed(k));
            let far = [
                0,
                1,
                4,
                8,
                39,
                40,
                41,
                48,
                56,
                1 << 20,
                (1 << 20) + 1,
                1 << 31,
                u32::MAX,
                u32::MAX - 3,
                u32::MAX - 7,
                old.swap_bytes(),
                old.wrapping_neg(),
            ];
            for v in near.chain(far) {
                let mut b = blob.clone();
                b[4 * field..4 * field + 4].copy_from_slice(&v.to_be_bytes());
                r.ask(b, WORDS, found);
            }
        }
        for at in (40..blob.len() - 3).step_by(4) {
            for v in [0, 1, 2, 3, 4, 5, 9, 12, 255, u32::MAX, u32::MAX - 2, 1 << 24] {
                let mut b = blob.clone();
                b[at..at + 4].copy_from_slice(&u32::to_be_bytes(v));
                r.ask(b, WORDS, found);
            }
        }
        for at in 0..blob.len() {
            for v in [0, 1, 2, 4, 9, b'@', b'/', b'a', 0x80, 0xff] {
                let mut b = blob.clone();
                b[at] = v;
                r.ask(b, WORDS, found);
            }
        }
    }
    r.flush(found);
}

// The ceilings: open nodes, nodes, bytes; names around 31.
pub fn boundaries(r: &mut Readers, found: &mut Vec<Found>) {
    let chain = |n: usize, last: &str| {
        let mut t = Tree::named(last);
        for _ in 2..n {
            t = Tree::named("a").child(t);
        }
        trees::blob(&Tree::default().child(t), Layout::default())
    };
    for n in [63, 64, 65, 66] {
        r.ask(chain(n, "b"), WORDS, found);
        r.ask(chain(n, "/"), WORDS, found);
    }
    let row = |n: usize, last: &str| {
        let mut t = Tree::default();
        for i in 2..n {
            t.children.push(Tree::named(&format!("n{i}")));
        }
        t.children.push(Tree::named(last));
        trees::blob(&t, Layout::default())
    };
    for n in [2047, 2048, 2049] {
        for last in ["z", "/", "n2", "n2000"] {
            r.ask(row(n, last), WORDS, found);
        }
    }
    for n in (0..36).chain([62, 63, 64]) {
        let name = "x".repeat(n);
        r.ask(trees::blob(&Tree::default().child(Tree::named(&name)), Layout::default()), WORDS, found);
        r.ask(
            trees::blob(&Tree::default().child(Tree::named(&(name.clone() + "@1"))), Layout::default()),
            WORDS,
            found,
        );
        r.ask(trees::blob(&Tree::default().with(&name, &[1]), Layout::default()), WORDS, found);
    }
    for total in [(1 << 20) - 1, 1 << 20, (1 << 20) + 1] {
        r.ask(wrap(&[1, 0, 2, 9], &vec![b'a'; total - 72]), WORDS, found);
    }
    for name in reading::CELLS.iter().chain(&["phandle", "linux,phandle", "#foo-cells", "phandles", "#clock-cell"]) {
        for n in [0, 3, 4, 5, 8] {
            let mut t = Tree::default();
            t.props.push((name.to_string(), vec![1; n]));
            r.ask(trees::blob(&t, Layout::default()), WORDS, found);
        }
    }
    r.flush(found);
}

// Nodes of very many properties, the last or the first of which comes twice; so many that they don't fit the work space at once.
pub fn crowded(r: &mut Readers, found: &mut Vec<Found>) {
    for n in [2000, 8190, 8191, 8192, 8193, 8194, 16382, 16383, 16384, 16385, 16386, 20000, 32770] {
        for twice in [None, Some(0), Some(1), Some(n / 2), Some(n - 2), Some(n - 1)] {
            // Names of four letters, in an order that is not theirs.
            let name = |i: usize| {
                let k = i * 40503 % 65536;
                [
                    b'a' + (k >> 12) as u8,
                    b'a' + (k >> 8 & 15) as u8,
                    b'a' + (k >> 4 & 15) as u8,
                    b'a' + (k & 15) as u8,
                    0,
                ]
            };
            let mut s = vec![1, 0];
            for i in (0..n).chain(twice) {
                s.extend([3, 0, 5 * i as u32]);
            }
            s.extend([2, 9]);
            let strings: Vec<u8> = (0..n).flat_map(name).collect();
            r.ask(wrap(&s, &strings), WORDS, found);
        }
    }
    r.flush(found);
}

// Drawn trees, whole and damaged, until the time is over.
pub fn drawn(r: &mut Readers, found: &mut Vec<Found>, d: &mut Draw, until: Instant) {
    while Instant::now() < until {
        for _ in 0..400 {
            let most = 2 + d.below(25);
            let mut t = trees::draw(d, true, most);
            spoil(d, &mut t);
            let mut blob = trees::blob(&t, trees::layout(d));
            let harm = d.below(4);
            for _ in 0..harm {
                let at = d.below(blob.len());
                let word = at / 4 * 4;
                match d.below(4) {
                    0 => blob[at] = d.next() as u8,
                    1 => blob[at] ^= 1 << d.below(8),
                    2 if word + 4 <= blob.len() => {
                        let v = *d.pick(&[0u32, 1, 2, 3, 4, 9, 8, 12, 100]);
                        blob[word..word + 4].copy_from_slice(&v.to_be_bytes());
                    }
                    _ if word + 8 <= blob.len() => blob[word..word + 8].rotate_left(4),
                    _ => {}
                }
            }
            r.ask(blob, WORDS, found);
        }
    }
    r.flush(found);
}

// A tree that breaks 7, 10, 11 or 12 as often as not.
fn spoil(d: &mut Draw, t: &mut Tree) {
    let mut at = &mut *t;
    while !at.children.is_empty() && d.below(3) != 0 {
        let k = d.below(at.children.len());
        at = &mut at.children[k];
    }
    match d.below(8) {
        0 => at.children.extend(at.children.first().cloned()),
        1 => at.props.extend(at.props.first().cloned()),
        2 => at.props.push(("phandle".to_string(), vec![0, 0, 0, d.below(13) as u8])),
        3 => at.props.push(("linux,phandle".to_string(), vec![0, 0, 0, d.below(13) as u8])),
        4 => at.props.push(("#pwm-cells".to_string(), vec![0; d.below(6)])),
        5 => at.children.push(Tree::named(&String::from_utf8_lossy(&crate::names::draw_name(d)).replace('\0', ""))),
        _ => {}
    }
}
