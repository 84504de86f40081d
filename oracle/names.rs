// The tests of names and the maker of reservations: the given functions against ours.
use crate::ask::{Cases, Found, Question};
use crate::drawing::Draw;
use crate::given::vm_fdt::writer::{FdtReserveEntry, valid_node_name, valid_property_name};

// What the Rust says of a name; of bytes that are no UTF-8, which it can't be given, 01 says that they are no names. The reader's
// tests differ from the writer's in one: the empty name.
fn judged(name: &[u8]) -> String {
    let text = std::str::from_utf8(name).ok();
    let node = text.is_some_and(valid_node_name);
    let property = text.is_some_and(valid_property_name);
    let bit = |b: bool| if b { '1' } else { '0' };
    [bit(node), bit(property), bit(node && !name.is_empty()), bit(property)].iter().collect()
}

fn ask(cases: &mut Cases, name: &[u8]) {
    let q = Question { op: b'n', a: 0, b: 0, name: name.to_vec(), val: Vec::new() };
    cases.ask(&q, judged(name));
}

// Every string of up to two bytes.
pub fn short(cases: &mut Cases, found: &mut Vec<Found>) {
    ask(cases, b"");
    for a in 0..=255 {
        ask(cases, &[a]);
        for b in 0..=255 {
            ask(cases, &[a, b]);
        }
        if cases.full() {
            cases.flush("names", found);
        }
    }
    cases.flush("names", found);
}

// Three bytes where the middle ones are those that the rules name, and their neighbours in the table of characters.
pub fn edges(cases: &mut Cases, found: &mut Vec<Found>) {
    let marks = b"@,._+-?#09azAZ/:`{[\x00\x7f\x80\xc3\xa9 ";
    for &a in marks {
        for &b in marks {
            for &c in marks {
                ask(cases, &[a, b, c]);
            }
        }
    }
    for head in (0..=34).chain(60..=66) {
        let name = vec![b'n'; head];
        ask(cases, &name);
        for unit in [0, 1, 2, 30, 31, 32, 33, 63, 64, 200] {
            ask(cases, &[&name[..], b"@", &vec![b'1'; unit]].concat());
            ask(cases, &[&name[..], b"@", &vec![b'1'; unit], b"@"].concat());
        }
        for at in 0..head {
            for b in [b'@', b'#', b'/', 0, 0xc3] {
                let mut other = name.clone();
                other[at] = b;
                ask(cases, &other);
            }
        }
    }
    cases.flush("names", found);
}

pub fn draw_name(d: &mut Draw) -> Vec<u8> {
    let n = match d.below(4) {
        0 => d.below(5),
        1 => 28 + d.below(8),
        2 => d.below(70),
        _ => 1 + d.below(12),
    };
    let good = b"abcdefghijklmnopqrstuvwxyzABCDEFGHIJKLMNOPQRSTUVWXYZ0123456789,._+-";
    let mut name: Vec<u8> = (0..n).map(|_| *d.pick(good)).collect();
    for _ in 0..d.below(3) {
        if !name.is_empty() {
            let at = d.below(name.len());
            name[at] = match d.below(6) {
                0 | 1 => b'@',
                2 => *d.pick(b"?#"),
                3 => d.next() as u8,
                4 => *d.pick(b"/\x00 @~:\x7f"),
                _ => b'a',
            };
        }
    }
    if d.one_in(12) {
        let at = d.below(name.len() + 1);
        name.splice(at..at, "é".bytes());
    }
    name
}

pub fn drawn(cases: &mut Cases, found: &mut Vec<Found>, d: &mut Draw, count: usize) {
    for _ in 0..count {
        ask(cases, &draw_name(d));
        if cases.full() {
            cases.flush("names", found);
        }
    }
    cases.flush("names", found);
}

fn made(cases: &mut Cases, address: u64, size: u64) {
    // `checked_add` has no refusal for a sum of 2^64 exactly other than its overflow: the two rules are one.
    let answer = match FdtReserveEntry::new(address, size) {
        Ok(_) => format!("00 {address:016x} {size:016x}"),
        Err(_) => format!("27 {:016x} {:016x}", 0, 0),
    };
    cases.ask(&Question { op: b'm', a: address, b: size, name: Vec::new(), val: Vec::new() }, answer);
}

pub fn limits() -> Vec<u64> {
    let mut all = Vec::new();
    for k in [0, 1, 2, 3, 7, 8, 15, 16, 31, 32, 33, 48, 62, 63] {
        let p = 1u64 << k;
        all.extend([
            p - 1,
            p,
            p + 1,
            p.wrapping_neg(),
            p.wrapping_neg().wrapping_sub(1),
            p.wrapping_neg().wrapping_add(1),
        ]);
    }
    all.sort();
    all.dedup();
    all
}

// Every pair of numbers around each limit.
pub fn reservations(cases: &mut Cases, found: &mut Vec<Found>, d: &mut Draw, count: usize) {
    let all = limits();
    for &a in &all {
        for &s in &all {
            made(cases, a, s);
        }
    }
    for _ in 0..count {
        let a = d.next();
        let s = match d.below(3) {
            0 => d.next(),
            1 => a.wrapping_neg().wrapping_add(d.below(5) as u64).wrapping_sub(2),
            _ => d.below(3) as u64,
        };
        made(cases, a, s);
    }
    cases.flush("reservations", found);
}

// The names and reservations of the stored sample.
pub fn sample(cases: &mut Cases, found: &mut Vec<Found>, d: &mut Draw) {
    for n in [0, 1, 30, 31, 32, 63, 64] {
        for end in [&b""[..], b"@", b"@1", b"@1@"] {
            ask(cases, &[&vec![b'n'; n], end].concat());
        }
    }
    for b in b",._+-?#@/:`{[ ~\x00\x7f\x80\xff" {
        ask(cases, &[b'a', *b]);
    }
    ask(cases, "é".as_bytes());
    drawn(cases, found, d, 60);
    for a in [0, 1, u64::MAX - 1, u64::MAX] {
        for s in [0, 1, 2, u64::MAX - 1, u64::MAX] {
            made(cases, a, s);
        }
    }
    cases.flush("sample", found);
}
