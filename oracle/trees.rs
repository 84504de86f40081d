// Trees and requests drawn from a seed, and blobs of them: names and values are drawn from few, so that what the rules tell apart
// comes up often (`/soc2` beside `/soc`, `a.b` beside `a`, a value that is some node's phandle).
use crate::deriving::{REFERENCES, Request};
use crate::drawing::Draw;
use crate::reading::CELLS;

#[derive(Clone, Debug, Default)]
pub struct Tree {
    pub name: String,
    pub props: Vec<(String, Vec<u8>)>,
    pub children: Vec<Tree>,
}

impl Tree {
    pub fn named(name: &str) -> Tree {
        Tree { name: name.to_string(), ..Tree::default() }
    }

    pub fn with(mut self, name: &str, words: &[u32]) -> Tree {
        self.props.push((name.to_string(), words.iter().flat_map(|w| w.to_be_bytes()).collect()));
        self
    }

    pub fn child(mut self, child: Tree) -> Tree {
        self.children.push(child);
        self
    }

    pub fn count(&self) -> usize {
        1 + self.children.iter().map(Tree::count).sum::<usize>()
    }
}

// How a blob is laid out: nothing of it changes what the blob says.
#[derive(Clone, Copy, Default)]
pub struct Layout {
    pub nops: bool,
    pub gap: usize,
    pub reservations: usize,
    // Names that end others are not written again.
    pub endings: bool,
    pub behind: usize,
}

fn put(s: &mut Vec<u8>, v: usize) {
    s.extend((v as u32).to_be_bytes());
}

fn pad(s: &mut Vec<u8>, with: u8) {
    s.resize(s.len().next_multiple_of(4), with);
}

fn offset(strings: &mut Vec<u8>, name: &str, endings: bool) -> usize {
    let whole = [name.as_bytes(), b"\0"].concat();
    let at =
        (0..strings.len()).find(|&i| strings[i..].starts_with(&whole) && (endings || i == 0 || strings[i - 1] == 0));
    at.unwrap_or_else(|| {
        strings.extend(&whole);
        strings.len() - whole.len()
    })
}

fn node(t: &Tree, s: &mut Vec<u8>, strings: &mut Vec<u8>, l: Layout) {
    let nop = |s: &mut Vec<u8>| {
        if l.nops && s.len() % 12 == 0 {
            put(s, 4);
        }
    };
    nop(s);
    put(s, 1);
    s.extend(t.name.as_bytes());
    s.push(0);
    pad(s, if l.nops { 0xee } else { 0 });
    for (name, value) in &t.props {
        nop(s);
        put(s, 3);
        put(s, value.len());
        let at = offset(strings, name, l.endings);
        put(s, at);
        s.extend(value);
        pad(s, if l.nops { 0xee } else { 0 });
    }
    for c in &t.children {
        node(c, s, strings, l);
    }
    nop(s);
    put(s, 2);
}

pub fn blob(t: &Tree, l: Layout) -> Vec<u8> {
    let (mut s, mut strings) = (Vec::new(), Vec::new());
    node(t, &mut s, &mut strings, l);
    put(&mut s, 9);
    let mut out = Vec::new();
    let at = 40 + 16 * (l.reservations + 1) + l.gap * 4;
    let strings_at = at + s.len() + l.gap;
    for v in [0xd00dfeed, strings_at + strings.len(), at, strings_at, 40, 17, 16, 0, strings.len(), s.len()] {
        put(&mut out, v);
    }
    for i in 0..l.reservations {
        out.extend((64 * i as u64).to_be_bytes());
        out.extend(8u64.to_be_bytes());
    }
    out.extend([0; 16]);
    out.resize(at, 0xee);
    out.extend(s);
    out.resize(strings_at, 0xee);
    out.extend(strings);
    out.resize(out.len() + l.behind, 0xee);
    out
}

const NAMES: [&str; 26] = [
    "soc",
    "soc2",
    "soc-a",
    "soc.b",
    "soc0",
    "uart@100",
    "uart@10",
    "uart",
    "a",
    "a.b",
    "a-b",
    "a0",
    "a,b",
    "b",
    "clk",
    "pd",
    "dma@200",
    "bus",
    "leaf",
    "x@",
    "pinctrl",
    "gpio@1",
    "reserved-memory",
    "chosen",
    "thermal",
    "psci",
];
// Names that the listed differences turn on.
const SPECIAL: [&str; 8] = ["memory", "memory@0", "memory-controller", "cpus", "cpus2", "cpusets", "cpu", "cpu@0"];
const CPUS: [&str; 9] = ["cpu@0", "cpu@1", "cpu@100", "cpu", "cpu-map", "cpux@0", "idle-states", "l2-cache", "cpu@0,0"];

// Names beside the listed ones that are references too.
const OTHERS: [&str; 17] = [
    "gpios",
    "vcc-supply",
    "-supply",
    "cs-gpios",
    "-gpios",
    "reset-gpio",
    "-gpio",
    "cells",
    "my-cellsx",
    // and names that are none
    "pwms",
    "interrupts",
    "interrupts-extended",
    "supply",
    "gpio",
    "clock",
    "pinctrl-5",
    "#my-cells",
];

pub struct Drawn<'a> {
    pub d: &'a mut Draw,
    phandles: Vec<u32>,
    special: bool,
}

impl Drawn<'_> {
    fn value(&mut self) -> Vec<u8> {
        if self.d.one_in(8) {
            let n = self.d.below(10);
            return self.d.bytes(n);
        }
        let n = self.d.below(6);
        (0..n).flat_map(|_| ((self.d.below(13)) as u32).to_be_bytes()).collect()
    }

    fn props(&mut self, t: &mut Tree) {
        let put = |t: &mut Tree, name: &str, value: Vec<u8>| {
            if !t.props.iter().any(|p| p.0 == name) {
                t.props.push((name.to_string(), value));
            }
        };
        for _ in 0..self.d.below(4) {
            let name = if self.d.one_in(5) {
                *self.d.pick(&["compatible", "reg", "status", "p"])
            } else {
                let i = self.d.below(REFERENCES.len() + OTHERS.len());
                if i < REFERENCES.len() { REFERENCES[i] } else { OTHERS[i - REFERENCES.len()] }
            };
            let value = self.value();
            put(t, name, value);
        }
        if self.d.one_in(2) && !self.phandles.is_empty() {
            let at = self.d.below(self.phandles.len());
            let v = self.phandles.swap_remove(at).to_be_bytes().to_vec();
            let both = self.d.below(4);
            if both != 0 {
                put(t, "phandle", v.clone());
            }
            if both < 2 {
                put(t, "linux,phandle", v);
            }
        }
        for _ in 0..self.d.below(3) {
            let name = *self.d.pick(&CELLS);
            let c = if self.d.one_in(20) { u32::MAX - self.d.below(2) as u32 } else { self.d.below(4) as u32 };
            put(t, name, c.to_be_bytes().to_vec());
        }
        let n = t.props.len();
        if n > 1 && self.d.one_in(2) {
            let at = self.d.below(n);
            t.props.rotate_left(at);
        }
    }

    fn fill(&mut self, t: &mut Tree, depth: usize, left: &mut usize) {
        self.props(t);
        let children = if depth > 5 { 0 } else { self.d.below(5) };
        for _ in 0..children {
            if *left == 0 {
                return;
            }
            let special = self.special && self.d.one_in(4);
            let name = if special { *self.d.pick(&SPECIAL) } else { *self.d.pick(&NAMES) };
            if t.children.iter().any(|c| c.name == name) {
                continue;
            }
            *left -= 1;
            let mut child = Tree::named(name);
            self.fill(&mut child, depth + 1, left);
            t.children.push(child);
        }
    }

    fn cpus(&mut self, t: &mut Tree) {
        if t.children.iter().any(|c| c.name == "cpus") {
            return;
        }
        let mut cpus = Tree::named("cpus");
        self.props(&mut cpus);
        cpus.props.retain(|p| !matches!(p.0.as_str(), "#address-cells" | "#size-cells"));
        let wide = self.d.one_in(2);
        let sized = self.special && self.d.one_in(4);
        let mut put =
            Tree::default().with("#address-cells", &[1 + wide as u32]).with("#size-cells", &[sized as u32]).props;
        cpus.props.append(&mut put);
        for k in 0..self.d.below(5) {
            let name = *self.d.pick(if self.special {
                &CPUS[..]
            } else {
                &["cpu@0", "cpu@1", "cpu@100", "cpu-map", "cpux@0", "l2-cache", "cpu@0,0"]
            });
            if cpus.children.iter().any(|c| c.name == name) {
                continue;
            }
            let mut cpu = Tree::named(name);
            self.props(&mut cpu);
            cpu.props.retain(|p| p.0 != "reg");
            let number = self.d.below(4) as u32 * (1 + 255 * self.d.below(2) as u32);
            let odd = self.special && self.d.one_in(6);
            match (odd, wide) {
                (true, _) => {
                    let n = *self.d.pick(&[0, 3, 4, 5, 8, 12]);
                    cpu.props.push(("reg".to_string(), self.d.bytes(n)));
                }
                (_, false) => cpu = cpu.with("reg", &[number]),
                (_, true) => cpu = cpu.with("reg", &[k as u32 % 2, number]),
            }
            if self.special && self.d.one_in(3) {
                let mut inner = Tree::named("cache");
                self.props(&mut inner);
                cpu.children.push(inner);
            }
            cpus.children.push(cpu);
        }
        let at = self.d.below(t.children.len() + 1);
        t.children.insert(at, cpus);
    }
}

// A tree; `special`: with names and shapes on which the listed differences turn.
pub fn draw(d: &mut Draw, special: bool, most: usize) -> Tree {
    let mut root = Tree::default();
    let mut drawn = Drawn { d, phandles: (0..13).collect(), special };
    let mut left = most;
    drawn.fill(&mut root, 0, &mut left);
    if drawn.d.one_in(2) {
        drawn.cpus(&mut root);
    }
    root
}

pub fn layout(d: &mut Draw) -> Layout {
    if d.one_in(2) {
        return Layout::default();
    }
    Layout {
        nops: d.one_in(2),
        gap: 4 * d.below(3),
        reservations: d.below(4),
        endings: d.one_in(2),
        behind: d.below(5),
    }
}

// A request about the nodes of these paths; `wrong`: it may be one that is refused.
pub fn request(d: &mut Draw, paths: &[String], ids: &[u64], wrong: bool) -> Request {
    let mut q = Request::default();
    for _ in 0..d.below(4) {
        let path = d.pick(paths).clone();
        if wrong && d.one_in(6) || !q.configured.contains(&path) {
            q.configured.push(path);
        }
    }
    for _ in 0..d.below(3) {
        q.excluded.push(d.pick(paths).clone());
    }
    if d.one_in(6) {
        q.excluded.push(d.pick(&["/nothing", "/soc/", "//", "/so", "/SOC"]).to_string());
    }
    if wrong && d.one_in(6) {
        q.configured.push(d.pick(&["/nothing", "/soc/", "//", "", "soc", "/uart"]).to_string());
    }
    if !ids.is_empty() && !d.one_in(6) {
        for _ in 0..1 + d.below(3) {
            q.ids.push(*d.pick(ids));
        }
    }
    if wrong && d.one_in(6) {
        q.ids.push(d.below(4) as u64);
    }
    q
}

pub fn input(d: &mut Draw, q: &Request) -> Vec<u8> {
    let mut all: [Vec<String>; 3] = [
        q.configured.iter().map(|p| format!("c {p}")).collect(),
        q.excluded.iter().map(|p| format!("x {p}")).collect(),
        q.ids.iter().map(|n| format!("i {n}")).collect(),
    ];
    for v in &mut all {
        v.reverse();
    }
    let mut lines: Vec<String> = Vec::new();
    while all.iter().any(|v| !v.is_empty()) {
        let k = d.below(3);
        lines.extend(all[k].pop());
    }
    let mut text = lines.join("\n").into_bytes();
    if !text.is_empty() && !d.one_in(4) {
        text.push(b'\n');
    }
    text
}
