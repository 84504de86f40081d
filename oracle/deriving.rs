// Document 01's derivation and command program, read in Rust: refusals 41 to 46, the list, the CPU rule, the copy. The list's own
// oracle is the given device.rs, and the copy's create.rs; this says what to expect where they say nothing.
use crate::reading::{self, CEILING, Node, Refused, refused};

#[derive(Clone, Debug, Default)]
pub struct Request {
    pub configured: Vec<String>,
    pub excluded: Vec<String>,
    pub ids: Vec<u64>,
}

#[derive(Clone, Debug)]
pub struct Answer {
    pub list: Vec<String>,
    pub guest: Vec<u8>,
}

// The names that the source lists; the other reference names are told by their ending or by the part `cells`.
pub const REFERENCES: [&str; 23] = [
    "clocks",
    "power-domains",
    "phys",
    "resets",
    "dmas",
    "thermal-sensors",
    "mboxes",
    "assigned-clocks",
    "interrupt-parent",
    "phy-handle",
    "msi-parent",
    "memory-region",
    "syscon",
    "regmap",
    "iommus",
    "interconnects",
    "nvmem-cells",
    "sound-dai",
    "pinctrl-0",
    "pinctrl-1",
    "pinctrl-2",
    "pinctrl-3",
    "pinctrl-4",
];

fn is_reference(name: &str) -> bool {
    REFERENCES.contains(&name)
        || ["-supply", "-gpios", "-gpio"].iter().any(|e| name.ends_with(e))
        || name == "gpios"
        || name.contains("cells") && !name.starts_with('#')
}

fn cells_name(name: &str) -> Option<&'static str> {
    Some(match name {
        "clocks" | "assigned-clocks" => "#clock-cells",
        "resets" => "#reset-cells",
        "power-domains" => "#power-domain-cells",
        "phys" => "#phy-cells",
        "gpios" => "#gpio-cells",
        "dmas" => "#dma-cells",
        "thermal-sensors" => "#thermal-sensor-cells",
        "sound-dai" => "#sound-dai-cells",
        "mboxes" => "#mbox-cells",
        _ if name.ends_with("-gpios") || name.ends_with("-gpio") => "#gpio-cells",
        _ => return None,
    })
}

// The nodes that a property references, in word order.
fn scan(nodes: &[Node], name: &str, value: &[u8]) -> Vec<usize> {
    let mut found = Vec::new();
    if value.len() % 4 != 0 {
        return found;
    }
    let words: Vec<u32> = value.chunks(4).map(|c| u32::from_be_bytes(c.try_into().unwrap())).collect();
    let mut i = 0;
    while i < words.len() {
        let Some(target) = nodes.iter().position(|n| n.phandle == Some(words[i])) else {
            i += 1;
            continue;
        };
        let row = cells_name(name).and_then(|c| nodes[target].props.iter().find(|p| p.name == c));
        let c = row.map_or(0, |p| u32::from_be_bytes(p.value[..].try_into().unwrap()) as usize);
        if i + c >= words.len() {
            break;
        }
        found.push(target);
        i += c + 1;
    }
    found
}

fn below(nodes: &[Node], n: usize, top: usize) -> bool {
    let mut at = n;
    while at != 0 {
        at = nodes[at].parent;
        if at == top {
            return true;
        }
    }
    false
}

fn check_list(paths: &[String]) -> Result<(), Refused> {
    let mut at = 0;
    for (i, p) in paths.iter().enumerate() {
        if i == 64 || !p.starts_with('/') || p.len() > 1024 {
            return refused(41, at);
        }
        at += p.len() + 1;
    }
    Ok(())
}

fn is_cpu(name: &str) -> bool {
    name == "cpu" || name.starts_with("cpu@")
}

pub struct Derived {
    pub nodes: Vec<Node>,
    pub paths: Vec<String>,
    pub listed: Vec<usize>,
    pub copied: Vec<bool>,
}

fn list(nodes: &[Node], paths: &[String], start: &[usize], out: &[bool]) -> Vec<usize> {
    let mut order: Vec<usize> = start.to_vec();
    for &c in start {
        let mut under: Vec<usize> = (0..nodes.len()).filter(|&n| below(nodes, n, c) && !order.contains(&n)).collect();
        under.sort_by(|&a, &b| paths[a].as_bytes().cmp(paths[b].as_bytes()));
        order.extend(under);
    }
    let mut stack = order.clone();
    stack.sort_by(|&a, &b| paths[a].as_bytes().cmp(paths[b].as_bytes()));
    while let Some(n) = stack.pop() {
        for p in nodes[n].props.iter().filter(|p| is_reference(&p.name)) {
            for t in scan(nodes, &p.name, &p.value) {
                if !order.contains(&t) {
                    order.push(t);
                    stack.push(t);
                }
            }
        }
    }
    order.retain(|&n| n != 0 && !out[n]);
    order
}

// The numbers of the CPU children, or 43.
fn cpus(nodes: &[Node], paths: &[String]) -> Result<Vec<(usize, u64)>, Refused> {
    let mut found = Vec::new();
    for (i, n) in nodes.iter().enumerate() {
        if i != 0 && paths[n.parent] == "/cpus" && is_cpu(&n.name) {
            let reg = n.props.iter().find(|p| p.name == "reg").filter(|p| matches!(p.value.len(), 4 | 8));
            let Some(reg) = reg else { return refused(43, n.place) };
            found.push((i, reg.value.iter().fold(0, |v, &b| v << 8 | b as u64)));
        }
    }
    Ok(found)
}

pub fn derive(blob: &[u8], q: &Request) -> Result<Derived, Refused> {
    let nodes = reading::read(blob, reading::WORDS)?;
    let paths = reading::paths(&nodes);
    check_list(&q.configured)?;
    check_list(&q.excluded)?;
    if q.ids.len() > 64 {
        return refused(41, 64);
    }
    let mut start = Vec::new();
    let mut at = 0;
    for c in &q.configured {
        match paths.iter().position(|p| p == c) {
            Some(n) if !start.contains(&n) => start.push(n),
            _ => return refused(42, at),
        }
        at += c.len() + 1;
    }
    let mut kept_cpus = Vec::new();
    let mut cpu_nodes = Vec::new();
    if !q.ids.is_empty() {
        cpu_nodes = cpus(&nodes, &paths)?;
        for (i, id) in q.ids.iter().enumerate() {
            if !cpu_nodes.iter().any(|c| c.1 == *id) {
                return refused(44, i);
            }
        }
        kept_cpus = cpu_nodes.iter().filter(|c| q.ids.contains(&c.1)).map(|c| c.0).collect();
    }
    let tops: Vec<usize> = (0..nodes.len()).filter(|&n| q.excluded.contains(&paths[n])).collect();
    let out: Vec<bool> = (0..nodes.len()).map(|n| tops.iter().any(|&t| n == t || below(&nodes, n, t))).collect();
    let listed = list(&nodes, &paths, &start, &out);
    let top = paths.iter().position(|p| p == "/cpus");
    let copied = (0..nodes.len())
        .map(|n| {
            if n == 0 {
                return true;
            }
            if let Some(t) = top.filter(|&t| n == t || below(&nodes, n, t)) {
                let _ = t;
                let dropped = |c: &(usize, u64)| (n == c.0 || below(&nodes, n, c.0)) && !kept_cpus.contains(&c.0);
                return !q.ids.is_empty() && !cpu_nodes.iter().any(dropped);
            }
            !out[n] && listed.iter().any(|&l| l == n || below(&nodes, l, n) || below(&nodes, n, l))
        })
        .collect();
    Ok(Derived { nodes, paths, listed, copied })
}

// What the writer leaves of the copied nodes.
pub fn guest(d: &Derived) -> Vec<u8> {
    let mut structure: Vec<u8> = Vec::new();
    let mut strings: Vec<u8> = Vec::new();
    let mut names: Vec<(String, u32)> = Vec::new();
    let mut open: Vec<usize> = Vec::new();
    let put = |s: &mut Vec<u8>, v: u32| s.extend(v.to_be_bytes());
    let pad = |s: &mut Vec<u8>| s.resize(s.len().next_multiple_of(4), 0);
    for (i, n) in d.nodes.iter().enumerate().filter(|(i, _)| d.copied[*i]) {
        while let Some(&top) = open.last() {
            if below(&d.nodes, i, top) {
                break;
            }
            put(&mut structure, 2);
            open.pop();
        }
        open.push(i);
        put(&mut structure, 1);
        structure.extend(n.name.as_bytes());
        structure.push(0);
        pad(&mut structure);
        for p in &n.props {
            let offset = names.iter().find(|x| x.0 == p.name).map(|x| x.1).unwrap_or_else(|| {
                let at = strings.len() as u32;
                names.push((p.name.clone(), at));
                strings.extend(p.name.as_bytes());
                strings.push(0);
                at
            });
            put(&mut structure, 3);
            put(&mut structure, p.value.len() as u32);
            put(&mut structure, offset);
            structure.extend(&p.value);
            pad(&mut structure);
        }
    }
    for _ in open {
        put(&mut structure, 2);
    }
    put(&mut structure, 9);
    let (a, b) = (structure.len() as u32, strings.len() as u32);
    let mut blob: Vec<u8> = Vec::new();
    for v in [0xd00dfeed, 56 + a + b, 56, 56 + a, 40, 17, 16, 0, b, a] {
        put(&mut blob, v);
    }
    blob.resize(56, 0);
    blob.extend(structure);
    blob.extend(strings);
    blob
}

// The answer with this much room for each output.
pub fn answer(blob: &[u8], q: &Request, list_room: usize, guest_room: usize) -> Result<Answer, Refused> {
    let d = derive(blob, q)?;
    let list: Vec<String> = d.listed.iter().map(|&n| d.paths[n].clone()).collect();
    let length: usize = list.iter().map(|p| p.len() + 1).sum();
    if length > list_room {
        return refused(45, length);
    }
    let guest = guest(&d);
    if guest.len() > guest_room.min(CEILING) {
        return refused(46, guest.len());
    }
    Ok(Answer { list, guest })
}

// The paths of a list as it is lent, each closed by a NUL; or the offset of the first that is at fault.
fn paths_of(list: &[u8]) -> Result<Vec<String>, Refused> {
    let mut paths = Vec::new();
    let mut at = 0;
    while at < list.len() {
        let Some(len) = list[at..].iter().position(|&b| b == 0) else { return refused(41, at) };
        let path = &list[at..at + len];
        if paths.len() == 64 || path.first() != Some(&b'/') || len > 1024 {
            return refused(41, at);
        }
        // Bytes that are not ASCII name no node; one character stands for each, so that lengths stay.
        paths.push(path.iter().map(|&b| if b < 128 { b as char } else { '\x7f' }).collect());
        at += len + 1;
    }
    Ok(paths)
}

// The derivation as a library: with work space of so many words, and lists as they are lent.
pub fn library(
    blob: &[u8],
    configured: &[u8],
    excluded: &[u8],
    ids: &[u64],
    words: usize,
    list_room: usize,
    guest_room: usize,
) -> Result<Answer, Refused> {
    reading::read(blob, words)?;
    let q = Request { configured: paths_of(configured)?, excluded: paths_of(excluded)?, ids: ids.to_vec() };
    answer(blob, &q, list_room, guest_room)
}

const PROGRAM: usize = 65536;

// The request that the program's input spells, or 41.
pub fn lines(input: &[u8]) -> Result<Request, Refused> {
    if input.len() > PROGRAM {
        return refused(41, PROGRAM);
    }
    let mut q = Request::default();
    let mut at = 0;
    while at < input.len() {
        let len = input[at..].iter().position(|&b| b == b'\n').unwrap_or(input.len() - at);
        let line = &input[at..at + len];
        if line.len() < 2 || line[1] != b' ' || line.contains(&0) {
            return refused(41, at);
        }
        // Bytes that are not UTF-8 name no node; one character stands for each, so that lengths stay.
        let text: String = line[2..].iter().map(|&b| if b < 128 { b as char } else { '\x7f' }).collect();
        match line[0] {
            b'c' => q.configured.push(text),
            b'x' => q.excluded.push(text),
            b'i' if !text.is_empty() && text.bytes().all(|b| b.is_ascii_digit()) => {
                match text.trim_start_matches('0') {
                    "" => q.ids.push(0),
                    digits => match digits.parse() {
                        Ok(n) => q.ids.push(n),
                        Err(_) => return refused(41, at),
                    },
                }
            }
            _ => return refused(41, at),
        }
        at += len + 1;
    }
    Ok(q)
}

// What the program prints, and the file that it writes.
pub fn program(host: &[u8], input: &[u8]) -> (Vec<u8>, Option<Vec<u8>>) {
    let answered = lines(input).and_then(|q| {
        if host.len() > PROGRAM {
            return refused(3, 0);
        }
        answer(host, &q, PROGRAM, PROGRAM)
    });
    match answered {
        Err(r) => (format!("refused {} at {}\n", r.number, r.place).into_bytes(), None),
        Ok(a) => {
            let mut text = format!("paths {}\n", a.list.len());
            for p in &a.list {
                text += p;
                text += "\n";
            }
            text += &format!("guest {}\n", a.guest.len());
            (text.into_bytes(), Some(a.guest))
        }
    }
}
