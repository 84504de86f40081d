// Document 01's reader, read in Rust: the source has none. It shares nothing with the proved code but the paper.
pub const CEILING: usize = 1 << 20;
pub const WORDS: usize = 16384;
const OPEN: usize = 64;
const NODES: usize = 2048;

pub const CELLS: [&str; 14] = [
    "#address-cells",
    "#size-cells",
    "#clock-cells",
    "#reset-cells",
    "#gpio-cells",
    "#interrupt-cells",
    "#power-domain-cells",
    "#thermal-sensor-cells",
    "#phy-cells",
    "#dma-cells",
    "#sound-dai-cells",
    "#mbox-cells",
    "#pwm-cells",
    "#iommu-cells",
];

#[derive(Clone, Copy, Debug, PartialEq, Eq)]
pub struct Refused {
    pub number: u32,
    pub place: u64,
}

pub fn refused<T>(number: u32, place: usize) -> Result<T, Refused> {
    Err(Refused { number, place: place as u64 })
}

#[derive(Clone, Debug)]
pub struct Prop {
    pub place: usize,
    pub name: String,
    pub value: Vec<u8>,
}

#[derive(Clone, Debug)]
pub struct Node {
    pub place: usize,
    pub parent: usize,
    pub name: String,
    pub props: Vec<Prop>,
    pub phandle: Option<u32>,
}

fn node_character(b: u8) -> bool {
    b.is_ascii_alphanumeric() || b",._+-".contains(&b)
}

fn property_character(b: u8) -> bool {
    node_character(b) || b"?#".contains(&b)
}

// As the writer takes it.
pub fn node_name(name: &[u8]) -> bool {
    let parts: Vec<&[u8]> = name.split(|&b| b == b'@').collect();
    name.is_empty()
        || parts.len() <= 2
            && (1..=31).contains(&parts[0].len())
            && parts.iter().all(|p| p.iter().all(|&b| node_character(b)))
}

pub fn property_name(name: &[u8]) -> bool {
    (1..=31).contains(&name.len()) && name.iter().all(|&b| property_character(b))
}

fn word(s: &[u8], at: usize) -> Option<usize> {
    let four = s.get(at..at + 4)?;
    Some(u32::from_be_bytes(four.try_into().unwrap()) as usize)
}

struct Blocks<'a> {
    at: usize,
    structure: &'a [u8],
    strings: &'a [u8],
}

// Refusals 1 to 5.
fn blocks(blob: &[u8]) -> Result<Blocks<'_>, Refused> {
    if blob.len() < 40 {
        return refused(1, 0);
    }
    let h: Vec<usize> = (0..10).map(|i| word(blob, 4 * i).unwrap()).collect();
    let (total, at, strings, rsv, size_strings, size) = (h[1], h[2], h[3], h[4], h[8], h[9]);
    if h[0] != 0xd00dfeed {
        return refused(2, 0);
    }
    if total < 40 || total > blob.len() || total > CEILING {
        return refused(3, 0);
    }
    if h[5] != 17 || h[6] != 16 {
        return refused(4, 0);
    }
    let ordered = at + size <= strings && strings + size_strings <= total;
    if rsv < 40 || rsv % 8 != 0 || at % 4 != 0 || size % 4 != 0 || !ordered {
        return refused(5, 0);
    }
    let closed = (rsv..).step_by(16).take_while(|k| k + 16 <= at).any(|k| blob[k..k + 16] == [0; 16]);
    if !closed {
        return refused(5, 0);
    }
    Ok(Blocks { at, structure: &blob[at..at + size], strings: &blob[strings..strings + size_strings] })
}

// Refusals 6 to 9, token by token.
fn walk(b: &Blocks) -> Result<Vec<Node>, Refused> {
    let s = b.structure;
    let mut nodes: Vec<Node> = Vec::new();
    let mut open: Vec<usize> = Vec::new();
    let mut child_seen = false;
    let mut at = 0;
    loop {
        let place = b.at + at;
        match word(s, at) {
            Some(1) => {
                let Some(len) = s[at + 4..].iter().position(|&c| c == 0) else { return refused(6, place) };
                if open.is_empty() && !nodes.is_empty() {
                    return refused(6, place);
                }
                let name = &s[at + 4..at + 4 + len];
                let root = open.is_empty();
                if root != name.is_empty() || !node_name(name) {
                    return refused(7, place);
                }
                if open.len() == OPEN {
                    return refused(8, place);
                }
                if nodes.len() == NODES {
                    return refused(9, place);
                }
                let parent = open.last().copied().unwrap_or(0);
                open.push(nodes.len());
                let name = String::from_utf8(name.to_vec()).unwrap();
                nodes.push(Node { place, parent, name, props: Vec::new(), phandle: None });
                child_seen = false;
                at += 4 + (len + 4) / 4 * 4;
            }
            Some(2) => {
                if open.pop().is_none() {
                    return refused(6, place);
                }
                child_seen = true;
                at += 4;
            }
            Some(3) => {
                let (Some(len), Some(offset)) = (word(s, at + 4), word(s, at + 8)) else { return refused(6, place) };
                let next = at + 12 + (len + 3) / 4 * 4;
                if next > s.len() || open.is_empty() || child_seen {
                    return refused(6, place);
                }
                let rest = b.strings.get(offset..).unwrap_or(&[]);
                let name = rest.iter().position(|&c| c == 0).map(|n| &rest[..n]);
                let Some(name) = name.filter(|n| property_name(n)) else { return refused(7, place) };
                let value = s[at + 12..at + 12 + len].to_vec();
                let name = String::from_utf8(name.to_vec()).unwrap();
                nodes[*open.last().unwrap()].props.push(Prop { place, name, value });
                at = next;
            }
            Some(4) => at += 4,
            Some(9) if open.is_empty() && !nodes.is_empty() && at + 4 == s.len() => return Ok(nodes),
            _ => return refused(6, place),
        }
    }
}

fn is_phandle(name: &str) -> bool {
    name == "phandle" || name == "linux,phandle"
}

// Refusals 10, 11 and 12: a pass each.
fn passes(nodes: &mut [Node]) -> Result<(), Refused> {
    let mut twins: Vec<usize> = Vec::new();
    for (i, n) in nodes.iter().enumerate().skip(1) {
        if nodes[1..i].iter().any(|m| m.parent == n.parent && m.name == n.name) {
            twins.push(n.place);
        }
    }
    for n in nodes.iter() {
        let mut names = std::collections::HashSet::new();
        twins.extend(n.props.iter().filter(|p| !names.insert(&p.name)).map(|p| p.place));
    }
    if let Some(&first) = twins.iter().min() {
        return refused(10, first);
    }
    for n in nodes.iter_mut() {
        for p in &n.props {
            let handle = is_phandle(&p.name);
            if (handle || CELLS.contains(&p.name.as_str())) && p.value.len() != 4 {
                return refused(11, p.place);
            }
            if handle {
                let v = u32::from_be_bytes(p.value[..].try_into().unwrap());
                if n.phandle.is_some_and(|w| w != v) {
                    return refused(11, p.place);
                }
                n.phandle = Some(v);
            }
        }
    }
    for (i, n) in nodes.iter().enumerate() {
        if n.phandle.is_some() && nodes[..i].iter().any(|m| m.phandle == n.phandle) {
            let first = n.props.iter().find(|p| is_phandle(&p.name)).unwrap();
            return refused(12, first.place);
        }
    }
    Ok(())
}

pub fn read(blob: &[u8], words: usize) -> Result<Vec<Node>, Refused> {
    if words < WORDS {
        return refused(40, 0);
    }
    let mut nodes = walk(&blocks(blob)?)?;
    passes(&mut nodes)?;
    Ok(nodes)
}

// What is left in the first words of the work space.
pub fn table(nodes: &[Node]) -> Vec<u32> {
    let row = |n: &Node| [n.place as u32, n.parent as u32, n.phandle.is_some() as u32, n.phandle.unwrap_or(0)];
    nodes.iter().flat_map(row).collect()
}

// Each node's path.
pub fn paths(nodes: &[Node]) -> Vec<String> {
    let mut paths: Vec<String> = Vec::new();
    for (i, n) in nodes.iter().enumerate() {
        let above = if i == 0 || n.parent == 0 { "" } else { &paths[n.parent] };
        let path = if i == 0 { "/".to_string() } else { format!("{above}/{}", n.name) };
        paths.push(path);
    }
    paths
}
