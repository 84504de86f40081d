// The table of references: which properties hold them, and which cells property they ask for. The given functions are private, so
// the given list is asked: a node is listed or it is not.
use crate::ask::{Cases, Found, Question};
use crate::deriving::{REFERENCES, Request};
use crate::drawing::Draw;
use crate::guests::given_list;
use crate::reading::CELLS;
use crate::trees::{self, Layout, Tree};

// Names beside the listed ones: two that are references by their form, one of each ending, and names that are none.
const OTHERS: [&str; 11] = [
    "gpios",
    "x-supply",
    "x-gpios",
    "x-gpio",
    "x-cells-x",
    "#x-cells",
    "pwms",
    "interrupts",
    "interrupts-extended",
    "phandle",
    "reg",
];

// The names that are asked about.
fn known() -> impl Iterator<Item = &'static str> {
    REFERENCES.into_iter().chain(OTHERS)
}

fn listed(name: &[u8], cells: &str) -> Vec<String> {
    let mut a = Tree::named("a");
    a.props.push((String::from_utf8(name.to_vec()).unwrap(), vec![0, 0, 0, 101, 0, 0, 0, 102]));
    let mut t = Tree::named("t").with("phandle", &[101]);
    if !cells.is_empty() {
        t = t.with(cells, &[1]);
    }
    let root = Tree::default().child(a).child(t).child(Tree::named("u").with("phandle", &[102]));
    given_list(
        &trees::blob(&root, Layout::default()),
        &Request { configured: vec!["/a".to_string()], ..Request::default() },
    )
}

// Whether the name holds references; and, where it does, whether a cells property has the word behind one skipped.
fn ask(cases: &mut Cases, name: &str, cells: &str) {
    // A node's own phandle names its node and no other; it is no case for this tree.
    if matches!(name, "" | "phandle" | "linux,phandle") || matches!(cells, "phandle" | "linux,phandle") {
        return;
    }
    let list = listed(name.as_bytes(), cells);
    let reference = list.iter().any(|p| p == "/t");
    let asked = reference && !list.iter().any(|p| p == "/u");
    let val = if reference { cells.as_bytes().to_vec() } else { Vec::new() };
    let q = Question { op: b'r', a: 0, b: 0, name: name.as_bytes().to_vec(), val };
    cases.ask(&q, format!("{}{}", reference as u8, asked as u8));
}

fn near(name: &str) -> Vec<String> {
    let mut all = vec![name.to_string()];
    for at in 0..=name.len() {
        let (head, tail) = name.split_at(at);
        for c in ["a", "s", "-", "#", "0", "5", "C", "é"] {
            all.push(format!("{head}{c}{tail}"));
            if !tail.is_empty() {
                all.push(format!("{head}{c}{}", &tail[1..]));
            }
        }
        if !tail.is_empty() {
            all.push(format!("{head}{}", &tail[1..]));
        }
        all.push(head.to_string());
        all.push(tail.to_string());
    }
    all
}

// Every name of the table and all that are one change away; each with every cells property, and with those near to it.
pub fn compare(cases: &mut Cases, found: &mut Vec<Found>, d: &mut Draw) {
    for name in known() {
        for n in near(name) {
            ask(cases, &n, "");
        }
        for cells in CELLS.iter().chain(&["#x-cells", "#cells", "cells", ""]) {
            ask(cases, name, cells);
        }
    }
    for _ in 0..4000 {
        let pieces = [
            "-supply", "-gpios", "-gpio", "gpios", "cells", "#", "x", "-", "clocks", "pinctrl-", "0", "phys", "supply",
        ];
        let n = 1 + d.below(4);
        let name: String = (0..n).map(|_| *d.pick(&pieces)).collect();
        let cells = near(*d.pick(&CELLS)).swap_remove(d.below(20));
        ask(cases, &name, &cells);
    }
    cases.flush("references", found);
}

// The names of the stored sample: each with the cells property that it could ask for, and one that it could not.
pub fn sample(cases: &mut Cases, found: &mut Vec<Found>) {
    for name in known() {
        for cells in ["#clock-cells", "#gpio-cells", "#iommu-cells"] {
            ask(cases, name, cells);
        }
    }
    for (i, cells) in CELLS.iter().enumerate() {
        ask(cases, REFERENCES[i], cells);
    }
    for name in
        ["-supply", "supply", "-gpio", "gpio", "-gpios", "cells", "#cells", "clock", "pinctrl-5", "clocksa", "aclocks"]
    {
        ask(cases, name, "");
    }
    cases.flush("sample", found);
}
