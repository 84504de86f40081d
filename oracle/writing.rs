// Calls of the writer, one by one: the given FdtWriter against ours. Document 01 adds lent buffers to it (33), states that can be
// handed in (34), and that a refused call changes nothing: a call is tried on a second writer in the same state, and the second
// takes the first's place where the call passes and there is room.
use crate::ask::{Cases, Found, Question};
use crate::drawing::Draw;
use crate::given::vm_fdt::writer::{Error, FdtReserveEntry, FdtWriter, Result, node_at};
use crate::names::{draw_name, limits};
use crate::reading::CEILING;
use std::collections::BTreeMap;

fn number(e: Error) -> u32 {
    match e {
        Error::PropertyBeforeBeginNode => 20,
        Error::PropertyAfterEndNode => 21,
        Error::PropertyValueTooLarge => 22,
        Error::TotalSizeTooLarge => 23,
        Error::InvalidString => 24,
        Error::OutOfOrderEndNode => 25,
        Error::UnclosedNode => 26,
        Error::InvalidMemoryReservation => 27,
        Error::OverlappingMemoryReservations => 28,
        Error::InvalidNodeName => 29,
        Error::InvalidPropertyName => 30,
        Error::NodeDepthTooLarge => 31,
        Error::DuplicatePhandle => 32,
    }
}

#[derive(Clone, Copy, Default)]
pub struct State {
    data_len: u64,
    off_dt_struct: u64,
    strings_len: u64,
    phandles_len: u64,
    node_depth: u64,
    node_ended: bool,
    finished: bool,
    boot_cpuid_phys: u32,
}

const NOTHING: State = State {
    data_len: 0,
    off_dt_struct: 0,
    strings_len: 0,
    phandles_len: 0,
    node_depth: 0,
    node_ended: false,
    finished: true,
    boot_cpuid_phys: 0,
};

// The given writer, and what is lent to ours.
pub struct Model {
    given: Option<FdtWriter>,
    pub state: State,
    data: Vec<u8>,
    strings: Vec<u8>,
    phandles: Vec<u32>,
    // How often each number came, and how often a number of a failed `property_phandle` came again (listed difference 2).
    pub came: BTreeMap<u32, u64>,
    pub used_up: Vec<u32>,
    pub again: u64,
}

fn digest(numbers: impl Iterator<Item = u64>) -> u64 {
    numbers.fold(0, |h, x| (h * 16777619 + x + 1) % (1 << 32))
}

// A string that the Rust can be given in the place of bytes that are no UTF-8: no name either, and with a NUL where they have one.
fn given_name(name: &[u8]) -> String {
    match std::str::from_utf8(name) {
        Ok(s) => s.to_string(),
        Err(_) => name.iter().map(|&b| if b == 0 { '\0' } else { '/' }).collect(),
    }
}

fn texts(val: &[u8]) -> Option<Vec<String>> {
    let mut parts: Vec<&[u8]> = val.split(|&b| b == 0).collect();
    parts.pop();
    parts.iter().map(|p| String::from_utf8(p.to_vec()).ok()).collect()
}

impl Model {
    pub fn new() -> Model {
        Model {
            given: None,
            state: NOTHING,
            data: Vec::new(),
            strings: Vec::new(),
            phandles: Vec::new(),
            came: BTreeMap::new(),
            used_up: Vec::new(),
            again: 0,
        }
    }

    fn impossible(&self, q: &Question) -> bool {
        let s = &self.state;
        let strings = if q.op == b'b' || q.op == b'e' { CEILING } else { self.strings.len().min(CEILING) };
        s.finished
            || s.data_len < 56
            || s.data_len % 4 != 0
            || s.off_dt_struct < 56
            || s.off_dt_struct > s.data_len
            || s.node_depth > 64
            || s.data_len > self.data.len().min(CEILING) as u64
            || s.strings_len > strings as u64
            || q.op == b'h' && s.phandles_len > self.phandles.len() as u64
    }

    fn entries(val: &[u8], count: usize) -> Result<Vec<FdtReserveEntry>> {
        let eight = |at: usize| u64::from_be_bytes(val[at..at + 8].try_into().unwrap());
        (0..count).map(|i| FdtReserveEntry::new(eight(16 * i), eight(16 * i + 8))).collect()
    }

    fn started(&mut self, q: &Question) -> u32 {
        let count = if q.op == b'0' { 0 } else { q.a };
        self.state = NOTHING;
        self.given = None;
        self.used_up.clear();
        if count > 32 {
            return 33;
        }
        let made = Model::entries(&q.val, count as usize)
            .and_then(|e| if e.is_empty() { FdtWriter::new() } else { FdtWriter::new_with_mem_reserv(&e) });
        match made {
            Err(e) => number(e),
            Ok(w) => {
                if w.seen().data.len() > self.data.len() {
                    return 33;
                }
                self.take(w, false);
                0
            }
        }
    }

    // The state and the bytes of a call that passed.
    fn take(&mut self, w: FdtWriter, phandle: bool) {
        let seen = w.seen();
        self.data[..seen.data.len()].copy_from_slice(&seen.data);
        self.strings[..seen.strings.len()].copy_from_slice(&seen.strings);
        self.state = State {
            data_len: seen.data.len() as u64,
            off_dt_struct: seen.off_dt_struct as u64,
            strings_len: seen.strings.len() as u64,
            phandles_len: self.state.phandles_len + phandle as u64,
            node_depth: seen.node_depth as u64,
            node_ended: seen.node_ended,
            finished: false,
            boot_cpuid_phys: seen.boot_cpuid_phys,
        };
        self.given = Some(w);
    }

    fn tried(&self, q: &Question, w: &mut FdtWriter) -> Result<()> {
        let name = given_name(&q.name);
        let name = name.as_str();
        let four = |c: &[u8]| u32::from_be_bytes(c.try_into().unwrap());
        let eight = |c: &[u8]| u64::from_be_bytes(c.try_into().unwrap());
        match q.op {
            b'b' => w.begin_node(name).map(|_| ()),
            // The depth can't be 0 in Rust (listed difference 5).
            b'e' if q.a == 0 => Err(Error::OutOfOrderEndNode),
            b'e' => w.end_node(node_at(q.a as usize)),
            b'p' => w.property(name, &q.val),
            b'z' => w.property_null(name),
            b't' => match std::str::from_utf8(&q.val) {
                Ok(text) => w.property_string(name, text),
                Err(_) if q.val.contains(&0) => Err(Error::InvalidString),
                Err(_) => w.property(name, &[&q.val[..], b"\0"].concat()),
            },
            // A list is lent as its strings, each closed by a NUL.
            b'k' if q.val.last().is_some_and(|&b| b != 0) => Err(Error::InvalidString),
            b'k' => match texts(&q.val) {
                Some(list) => w.property_string_list(name, list),
                None => w.property(name, &q.val),
            },
            b'w' => w.property_u32(name, q.a as u32),
            b'q' => w.property_u64(name, q.a),
            b'c' => w.property_array_u32(name, &q.val.chunks_exact(4).map(four).collect::<Vec<_>>()),
            b'd' => w.property_array_u64(name, &q.val.chunks_exact(8).map(eight).collect::<Vec<_>>()),
            _ => w.property_phandle(q.a as u32),
        }
    }

    fn room(&self, w: &FdtWriter, phandle: bool) -> bool {
        let seen = w.seen();
        seen.data.len() <= self.data.len().min(CEILING)
            && seen.strings.len() <= self.strings.len().min(CEILING)
            && self.state.phandles_len + phandle as u64 <= self.phandles.len() as u64
    }

    fn called(&mut self, q: &Question) -> u32 {
        match q.op {
            b'0' | b's' => return self.started(q),
            b'i' => {
                self.state.boot_cpuid_phys = q.a as u32;
                if let Some(w) = &mut self.given {
                    w.set_boot_cpuid_phys(q.a as u32);
                }
                return 0;
            }
            b'a' => {
                let field = match q.a {
                    0 => &mut self.state.data_len,
                    1 => &mut self.state.off_dt_struct,
                    2 => &mut self.state.strings_len,
                    3 => &mut self.state.phandles_len,
                    _ => &mut self.state.node_depth,
                };
                *field = q.b;
                return 0;
            }
            _ => {}
        }
        if self.impossible(q) {
            return 34;
        }
        let mut w = self.given.as_ref().unwrap().again();
        if q.op == b'f' {
            return match w.finish() {
                Err(e) => number(e),
                Ok(blob) if blob.len() > self.data.len().min(CEILING) => 33,
                Ok(blob) => {
                    self.data[..blob.len()].copy_from_slice(&blob);
                    self.state.data_len = blob.len() as u64;
                    self.state.finished = true;
                    0
                }
            };
        }
        let phandle = q.op == b'h';
        if phandle && self.used_up.contains(&(q.a as u32)) {
            self.again += 1;
        }
        if let Err(e) = self.tried(q, &mut w) {
            let n = number(e);
            if phandle && n != 32 {
                // Here the given writer has used the number up; ours has not.
                assert!(w.knows_phandle(q.a as u32));
                self.used_up.push(q.a as u32);
            }
            return n;
        }
        if !self.room(&w, phandle) {
            return 33;
        }
        if phandle {
            self.phandles[self.state.phandles_len as usize] = q.a as u32;
        }
        self.take(w, phandle);
        0
    }

    fn line(&self, n: u32) -> String {
        let s = &self.state;
        format!(
            "{n:02} {:016x} {:016x} {:016x} {:016x} {:016x} {} {} {:08x} {:08x} {:08x} {:08x}",
            s.data_len,
            s.off_dt_struct,
            s.strings_len,
            s.phandles_len,
            s.node_depth,
            s.node_ended as u8,
            s.finished as u8,
            s.boot_cpuid_phys,
            digest(self.data.iter().map(|&b| b as u64)),
            digest(self.strings.iter().map(|&b| b as u64)),
            digest(self.phandles.iter().map(|&w| w as u64))
        )
    }

    // Lends anew. Our program answers nothing to that.
    pub fn lend(&mut self, cases: &mut Cases, data: usize, strings: usize, phandles: usize) {
        self.data = vec![238; data];
        self.strings = vec![238; strings];
        self.phandles = vec![7; phandles];
        self.state = NOTHING;
        self.given = None;
        let val = (phandles as u32).to_be_bytes().to_vec();
        cases.lent(&Question { op: b'l', a: data as u64, b: strings as u64, name: Vec::new(), val });
    }

    pub fn call(&mut self, cases: &mut Cases, q: Question) -> u32 {
        let n = self.called(&q);
        *self.came.entry(n).or_default() += 1;
        let line = self.line(n);
        cases.ask(&q, line);
        n
    }
}

pub fn plain(op: u8) -> Question {
    Question { op, a: 0, b: 0, name: Vec::new(), val: Vec::new() }
}

pub fn numbered(op: u8, a: u64) -> Question {
    Question { a, ..plain(op) }
}

pub fn named(op: u8, name: &[u8], val: &[u8]) -> Question {
    Question { name: name.to_vec(), val: val.to_vec(), ..plain(op) }
}

pub fn reserve(entries: &[(u64, u64)], count: u64) -> Question {
    let val = entries.iter().flat_map(|e| [e.0.to_be_bytes(), e.1.to_be_bytes()].concat()).collect();
    Question { a: count, val, ..plain(b's') }
}

// Starts with every pair of valid entries around each limit, and with triples of near ones.
pub fn starts(cases: &mut Cases, m: &mut Model, found: &mut Vec<Found>) {
    let all = limits();
    let sizes = [1, 2, 4096, u64::MAX >> 1, u64::MAX - 1, u64::MAX];
    let mut entries: Vec<(u64, u64)> = Vec::new();
    for &a in &all {
        for s in sizes.into_iter().chain([u64::MAX - a]) {
            if FdtReserveEntry::new(a, s).is_ok() && !entries.contains(&(a, s)) {
                entries.push((a, s));
            }
        }
    }
    m.lend(cases, 120, 0, 0);
    for &e in &entries {
        m.call(cases, reserve(&[e], 1));
        for &f in &entries {
            m.call(cases, reserve(&[e, f], 2));
        }
        if cases.full() {
            cases.flush("reservations", found);
        }
    }
    let near: Vec<(u64, u64)> = (0..5).flat_map(|a| (1..4).map(move |s| (a, s))).collect();
    for &e in &near {
        for &f in &near {
            for &g in &near {
                m.call(cases, reserve(&[e, f, g], 3));
            }
        }
    }
    // How many there are, and the room for each number of them.
    for count in 0..=34usize {
        let many: Vec<(u64, u64)> = (0..count.min(32)).map(|i| (16 * i as u64, 16)).collect();
        for room in [55 + 16 * count, 56 + 16 * count, 57 + 16 * count] {
            m.lend(cases, room, 0, 0);
            m.call(cases, reserve(&many, count as u64));
        }
    }
    m.lend(cases, 1200, 0, 0);
    for count in [33, 64, 1 << 32, u64::MAX] {
        m.call(cases, reserve(&[(0, 1)], count));
    }
    cases.flush("reservations", found);
}

// The calls of which every sequence is made. The last of them closes at the depth that the state has.
fn alphabet(depth: u64) -> Vec<Question> {
    vec![
        named(b'b', b"", b""),
        named(b'b', b"a@1", b""),
        named(b'b', b"a@b@c", b""),
        named(b'b', b"a\0", b""),
        named(b'p', b"p", b"12345"),
        named(b'p', b"p/", b""),
        named(b'z', b"#q", b""),
        named(b't', b"p", b"x\0"),
        named(b'k', b"r", b"one\0two\0"),
        numbered(b'h', 1),
        numbered(b'h', 2),
        numbered(b'e', 1),
        numbered(b'e', 0),
        numbered(b'e', depth),
        plain(b'f'),
    ]
}

// Every sequence of `long` of those calls after a start, in lent buffers of these lengths.
pub fn sequences(cases: &mut Cases, m: &mut Model, found: &mut Vec<Found>, long: u32, rooms: &[(usize, usize, usize)]) {
    let letters = alphabet(0).len();
    for &(data, strings, phandles) in rooms {
        for code in 0..letters.pow(long) {
            m.lend(cases, data, strings, phandles);
            m.call(cases, plain(b'0'));
            let mut rest = code;
            for _ in 0..long {
                let q = alphabet(m.state.node_depth).swap_remove(rest % letters);
                m.call(cases, q);
                rest /= letters;
            }
            if cases.full() {
                cases.flush("calls in short sequences", found);
            }
        }
    }
    cases.flush("calls in short sequences", found);
}

fn draw_property(d: &mut Draw) -> Vec<u8> {
    match d.below(5) {
        0 => draw_name(d),
        1 => d.pick(&[&b"phandle"[..], b"linux,phandle", b"linux", b"handle", b""]).to_vec(),
        _ => d.pick(&[&b"a"[..], b"b", b"ab", b"#c", b"d?", b"reg", b"compatible"]).to_vec(),
    }
}

fn draw_call(d: &mut Draw, state: &State) -> Question {
    let depth = state.node_depth;
    // Calls that are refused whatever they say are kept rare.
    if state.finished && !d.one_in(4) {
        return plain(b'0');
    }
    if depth == 0 && d.one_in(2) {
        return named(b'b', b"", b"");
    }
    match d.below(24) {
        0..=4 => named(
            b'b',
            &if d.one_in(3) { draw_name(d) } else { d.pick(&[&b""[..], b"a", b"soc", b"uart@100"]).to_vec() },
            b"",
        ),
        5..=8 => numbered(b'e', if d.one_in(5) { d.below(4) as u64 } else { depth }),
        9..=11 => {
            let n = d.below(20);
            let val = d.bytes(n);
            named(b'p', &draw_property(d), &val)
        }
        12 => named(b'z', &draw_property(d), b""),
        13 => {
            let val =
                if d.one_in(3) { d.bytes(5) } else { d.pick(&[&b""[..], b"text", b"a\0b", "é".as_bytes()]).to_vec() };
            named(b't', &draw_property(d), &val)
        }
        14 => {
            let val =
                d.pick(&[&b""[..], b"\0", b"one\0", b"one\0two\0", b"one\0two", b"\0\0", b"\xff\0", b"x"]).to_vec();
            named(b'k', &draw_property(d), &val)
        }
        15 => Question { a: d.next(), ..named(b'w', &draw_property(d), b"") },
        16 => Question { a: d.next(), ..named(b'q', &draw_property(d), b"") },
        17 => {
            let val = {
                let n = 4 * d.below(4);
                d.bytes(n)
            };
            named(b'c', &draw_property(d), &val)
        }
        18 => {
            let val = {
                let n = 8 * d.below(4);
                d.bytes(n)
            };
            named(b'd', &draw_property(d), &val)
        }
        19 | 20 => numbered(b'h', d.below(6) as u64),
        21 => numbered(b'i', d.next()),
        22 => plain(b'f'),
        _ => {
            let count = d.below(4);
            let list: Vec<(u64, u64)> = (0..count).map(|_| (d.below(40) as u64, 1 + d.below(12) as u64)).collect();
            reserve(&list, count as u64)
        }
    }
}

// A state that can't be so: a number of it is changed, calls are made, and the number is put back.
fn forge(cases: &mut Cases, m: &mut Model, d: &mut Draw) {
    let s = m.state;
    let (lent, names) = (m.data.len() as u64, m.strings.len() as u64);
    let top = CEILING as u64 + 1;
    let (field, old, new) = match d.below(6) {
        0 => (0, s.data_len, *d.pick(&[0, 52, s.data_len + 1, s.data_len + 2, (lent + 4) / 4 * 4, u64::MAX - 3])),
        1 => (1, s.off_dt_struct, *d.pick(&[0, 52, s.data_len + 1, s.data_len + 4, u64::MAX])),
        2 => (2, s.strings_len, *d.pick(&[names + 1, top, u64::MAX])),
        3 => (3, s.phandles_len, *d.pick(&[m.phandles.len() as u64 + 1, u64::MAX])),
        _ => (4, s.node_depth, *d.pick(&[65, 66, u64::MAX])),
    };
    m.call(cases, Question { b: new, ..numbered(b'a', field) });
    for _ in 0..2 {
        // Where the call does not look at the number, the state is one that the given writer can't be brought to.
        let q = draw_call(d, &m.state);
        if m.impossible(&q) && !matches!(q.op, b's' | b'0') {
            m.call(cases, q);
        }
    }
    m.call(cases, Question { b: old, ..numbered(b'a', field) });
}

fn room(d: &mut Draw) -> (usize, usize, usize) {
    match d.below(4) {
        0 => (50 + d.below(120), d.below(20), d.below(4)),
        1 => (300 + d.below(200), d.below(40), d.below(3)),
        _ => (1500, 300, 8),
    }
}

pub fn drawn(cases: &mut Cases, m: &mut Model, found: &mut Vec<Found>, d: &mut Draw, count: usize) {
    for _ in 0..count {
        let (data, strings, phandles) = room(d);
        m.lend(cases, data, strings, phandles);
        if !d.one_in(20) {
            m.call(cases, plain(b'0'));
        }
        for _ in 0..4 + d.below(40) {
            if d.one_in(15) {
                forge(cases, m, d);
            }
            let q = draw_call(d, &m.state);
            m.call(cases, q);
        }
        if cases.full() {
            cases.flush("calls in drawn sequences", found);
        }
    }
    cases.flush("calls in drawn sequences", found);
}

// Down to the ceiling of open nodes and one further, by each name that could be refused first.
pub fn depths(cases: &mut Cases, m: &mut Model, found: &mut Vec<Found>) {
    for last in [&b"a"[..], b"a\0", b"/"] {
        m.lend(cases, 2000, 64, 4);
        m.call(cases, plain(b'0'));
        for _ in 0..64 {
            m.call(cases, named(b'b', b"a", b""));
        }
        m.call(cases, named(b'b', last, b""));
        m.call(cases, named(b'p', b"x", b"y"));
        for depth in (0..=65).rev() {
            m.call(cases, numbered(b'e', depth));
        }
        m.call(cases, plain(b'f'));
    }
    // Every room around what each call needs.
    for extra in 0..80 {
        m.lend(cases, 56 + extra, extra / 2, 1);
        for q in [
            plain(b'0'),
            named(b'b', b"", b""),
            named(b'p', b"ab", b"12345"),
            numbered(b'h', 9),
            named(b'b', b"abc", b""),
            named(b't', b"ab", b"xyz"),
        ] {
            m.call(cases, q);
        }
        for depth in [2, 1] {
            m.call(cases, numbered(b'e', depth));
        }
        m.call(cases, plain(b'f'));
    }
    cases.flush("calls in drawn sequences", found);
}

// Calls that meet each refusal, in the order in which the paper tests.
fn refusals(cases: &mut Cases, m: &mut Model) {
    m.lend(cases, 400, 60, 2);
    for q in [
        named(b'b', b"", b""),
        plain(b'0'),
        named(b'p', b"a/", b""),
        named(b't', b"a/", b"x\0"),
        named(b'b', b"a@b@c", b""),
        named(b'b', b"a/\0", b""),
        named(b'b', &[b'n'; 32], b""),
        named(b'b', b"\xff", b""),
        named(b'b', b"", b""),
        named(b'p', b"a", b"1"),
        named(b'p', b"a/", b""),
        named(b'p', b"a/\0", b""),
        named(b'p', &[b'p'; 32], b""),
        named(b'p', &[b'p'; 31], b"12345"),
        named(b'z', b"#z", b""),
        named(b't', b"t", b"text"),
        named(b'k', b"l", b"one\0two\0"),
        named(b'k', b"l", b"one\0two"),
        Question { a: 0x01020304, ..named(b'w', b"w", b"") },
        Question { a: 0x0102030405060708, ..named(b'q', b"q", b"") },
        named(b'c', b"c", b"\0\0\0\x01\0\0\0\x02"),
        named(b'd', b"d", b"\0\0\0\0\0\0\0\x03"),
        numbered(b'h', 7),
        numbered(b'h', 7),
        plain(b'f'),
        numbered(b'e', 0),
        numbered(b'e', 2),
        numbered(b'e', 1),
        named(b'p', b"a", b""),
        numbered(b'h', 8),
        numbered(b'i', 3),
        named(b'b', b"again", b""),
        numbered(b'h', 8),
        numbered(b'h', 9),
        numbered(b'e', 1),
        plain(b'f'),
        plain(b'f'),
        numbered(b'i', 4),
    ] {
        m.call(cases, q);
    }
    for (list, count) in [
        (&[(0, 4096), (4096, 1)][..], 2),
        (&[(0, 4097), (4096, 1)], 2),
        (&[(4096, 1), (0, 4097)], 2),
        (&[(u64::MAX - 1, 1)], 1),
        (&[(0, 1)], 33),
    ] {
        m.call(cases, reserve(list, count));
    }
    for (field, number) in [(0, 52), (0, 57), (1, 52), (1, 60), (4, 65)] {
        m.call(cases, plain(b'0'));
        m.call(cases, Question { b: number, ..numbered(b'a', field) });
        m.call(cases, named(b'b', b"", b""));
    }
    m.lend(cases, 900, 8, 0);
    m.call(cases, plain(b'0'));
    for _ in 0..65 {
        m.call(cases, named(b'b', b"", b""));
    }
    m.call(cases, numbered(b'h', 1));
}

// Some hundreds of questions for the repository to keep, with every refusal that can come.
pub fn sample(cases: &mut Cases, m: &mut Model, found: &mut Vec<Found>, d: &mut Draw) {
    refusals(cases, m);
    cases.flush("sample", found);
    drawn(cases, m, found, d, 14);
}
