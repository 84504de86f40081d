// The kinds of comparison, one after the other, within the time that is given.
use crate::ask::{Cases, FIRST, Found};
use crate::derivations::Derivations;
use crate::differences::Sides;
use crate::drawing::Draw;
use crate::guests::Program;
use crate::readers::Readers;
use crate::writing::Model;
use crate::{guests, names, readers, references, writing};
use std::collections::BTreeMap;
use std::io::{Read, Write};
use std::path::Path;
use std::time::{Duration, Instant};

fn value<'a>(words: &'a [String], name: &str, other: &'a str) -> &'a str {
    words.iter().position(|w| w == name).and_then(|i| words.get(i + 1)).map_or(other, |s| s.as_str())
}

fn came(numbers: &BTreeMap<u32, u64>) -> String {
    let all: Vec<String> = numbers.iter().map(|(i, n)| format!("{i}: {n}")).collect();
    all.join(", ")
}

pub fn run(words: &[String]) -> i32 {
    std::panic::set_hook(Box::new(|info| {
        if !info.location().is_some_and(|l| l.file().contains("shared")) {
            eprintln!("{info}");
        }
    }));
    match words.first().map(|s| s.as_str()) {
        Some("program") => program(),
        Some("sample") => sample(words),
        _ => compare(words),
    }
}

// What the command program does, by the rules as deriving.rs reads them: host.dtb and standard input in, guest.dtb and text out.
fn program() -> i32 {
    let host = std::fs::read("host.dtb").unwrap_or_default();
    let mut input = Vec::new();
    std::io::stdin().read_to_end(&mut input).unwrap();
    let (text, guest) = crate::deriving::program(&host, &input);
    if let Some(g) = guest {
        std::fs::write("guest.dtb", g).unwrap();
    }
    std::io::stdout().write_all(&text).unwrap();
    0
}

// Writes what was asked, and what is expected, beside a case program.
fn store(crate_name: &str, stdin: &[u8], stdout: &str) {
    let folder = Path::new("crates").join(crate_name);
    std::fs::write(folder.join("stdin"), stdin).unwrap();
    std::fs::write(folder.join("stdout"), stdout).unwrap();
}

// The stored sample: some hundreds of questions, with what the Rust answers.
fn sample(words: &[String]) -> i32 {
    let mut cases = Cases::new(value(words, "--cases", "target/here/oracle_cases"));
    cases.kept = Some(Vec::new());
    let (mut found, mut m, mut d) = (Vec::new(), Model::new(), Draw::new(1));
    names::sample(&mut cases, &mut found, &mut d);
    references::sample(&mut cases, &mut found);
    writing::sample(&mut cases, &mut m, &mut found, &mut d);
    let kept = cases.kept.take().unwrap();
    let stdin: String = kept.iter().map(|k| k.0.as_str()).collect();
    let stdout: String = kept.iter().filter_map(|k| k.1.as_ref()).map(|a| a.clone() + "\n").collect();
    store("oracle_cases", stdin.as_bytes(), &stdout);
    println!("{} answers, to calls {}", stdout.lines().count(), came(&m.came));
    cases.end();
    let library = value(words, "--derive", "target/here/beside_cases");
    if Path::new(library).exists() {
        let mut l = Derivations::new(library);
        l.kept = Some((Vec::new(), String::new()));
        guests::sample(&mut l, &mut found, &mut d);
        let (stdin, stdout) = l.kept.take().unwrap();
        store("beside_cases", &stdin, &stdout);
        println!("{} derivations, by refusal {}", stdout.lines().count(), came(&l.answers));
    }
    println!("{} differences", found.len());
    !found.is_empty() as i32
}

const KINDS: [&str; 7] = ["differences", "names", "reservations", "references", "calls", "reader", "guests"];

// A run of the comparison: both sides, what was drawn, and what was found.
struct Run<'a> {
    words: &'a [String],
    began: Instant,
    seconds: f64,
    cases: Cases,
    told: u64,
    model: Model,
    program: Program,
    draw: Draw,
    found: Vec<Found>,
}

impl Run<'_> {
    // When this part of the time is over.
    fn share(&self, part: f64) -> Instant {
        Instant::now() + Duration::from_secs_f64(self.seconds * part)
    }

    fn passed(&self) -> f64 {
        self.began.elapsed().as_secs_f64()
    }

    // Tells how many questions of a kind were asked since the last was told.
    fn tell(&mut self, kind: &str) {
        let differences = self.found.iter().filter(|f| kind.starts_with(f.kind)).count();
        println!("{kind}: {}, {differences} differences ({:.1} s)", self.cases.asked - self.told, self.passed());
        self.told = self.cases.asked;
    }

    fn kind(&mut self, kind: &str, shown: bool) {
        match kind {
            "differences" => self.differences(shown),
            "names" => self.names(),
            "reservations" => self.reservations(),
            "references" => self.references(),
            "calls" => self.calls(),
            "reader" => self.reader(),
            _ => self.guests(),
        }
    }

    fn differences(&mut self, shown: bool) {
        let mut s = Sides {
            cases: &mut self.cases,
            model: &mut self.model,
            program: &self.program,
            found: &mut self.found,
            shown,
            count: 0,
        };
        s.all();
        let count = s.count;
        println!("listed differences, each on a smallest input: {count}, {} not as listed", self.found.len());
        self.told = self.cases.asked;
    }

    fn names(&mut self) {
        names::short(&mut self.cases, &mut self.found);
        names::edges(&mut self.cases, &mut self.found);
        names::drawn(&mut self.cases, &mut self.found, &mut self.draw, 100000);
        self.tell("names");
    }

    fn reservations(&mut self) {
        names::reservations(&mut self.cases, &mut self.found, &mut self.draw, 20000);
        writing::starts(&mut self.cases, &mut self.model, &mut self.found);
        self.tell("reservations");
    }

    fn references(&mut self) {
        references::compare(&mut self.cases, &mut self.found, &mut self.draw);
        self.tell("references");
    }

    fn calls(&mut self) {
        let until = self.share(0.3);
        let (cases, m, found) = (&mut self.cases, &mut self.model, &mut self.found);
        writing::sequences(cases, m, found, 3, &[(120, 24, 2), (76, 4, 1)]);
        writing::sequences(cases, m, found, 4, &[(200, 24, 2)]);
        self.tell("calls in short sequences");
        let (cases, m, found) = (&mut self.cases, &mut self.model, &mut self.found);
        writing::depths(cases, m, found);
        while Instant::now() < until && found.is_empty() {
            writing::drawn(cases, m, found, &mut self.draw, 500);
        }
        self.tell("calls in drawn sequences");
        println!("  answers of the Rust to calls, 0 for none refused: {}", came(&self.model.came));
        println!("  a phandle given again after a call that failed (difference 2): {}", self.model.again);
    }

    fn reader(&mut self) {
        let mut r = Readers::new(value(self.words, "--reader", "target/here/reader_cases"));
        let (all, drawn) = (self.share(0.2), self.share(0.3));
        let found = &mut self.found;
        readers::damaged(&mut r, found);
        readers::boundaries(&mut r, found);
        readers::crowded(&mut r, found);
        let long = readers::structures(&mut r, found, 6, all);
        readers::drawn(&mut r, found, &mut self.draw, drawn);
        let (read, refused) = (r.counts.read, came(&r.counts.refused));
        let sum = read + r.counts.refused.values().sum::<u64>();
        println!(
            "reader: {sum} (every structure of up to {long} words out of 7), {read} read, refused {refused} ({:.1} s)",
            self.passed()
        );
    }

    fn guests(&mut self) {
        let mut c = guests::Counts::default();
        guests::limits(&self.program, &mut c, &mut self.found);
        guests::large(&self.program, &mut c, &mut self.found);
        guests::stored(&self.program, &mut c, &mut self.found, &mut self.draw);
        self.derivations(&mut c);
        if self.program.path.is_some() {
            let until = self.share(0.15);
            guests::drawn(&self.program, &mut c, &mut self.found, &mut self.draw, until);
        }
        println!("lists: {}; guests where no difference is listed: {}", c.lists, c.guests);
        println!(
            "  where one is: {} the same, {} not, as listed ({}); the Rust panics in {}",
            c.listed_same,
            c.listed_apart,
            came(&c.by_number),
            c.panics
        );
        println!("runs of guestdt: {}; refused {} ({:.1} s)", c.runs, came(&c.refused), self.passed());
    }

    fn derivations(&mut self, c: &mut guests::Counts) {
        let until = self.share(0.15);
        let library = value(self.words, "--derive", "target/here/beside_cases");
        if !Path::new(library).exists() {
            println!("beside_cases is not built: no derivation is asked of it");
            let none = Program { path: None, room: self.program.room.clone() };
            return guests::drawn(&none, c, &mut self.found, &mut self.draw, until);
        }
        let mut l = Derivations::new(library);
        guests::library(&mut l, c, &mut self.found, &mut self.draw, until);
        println!("derivations, by refusal: {} ({:.1} s)", came(&l.answers), self.passed());
    }

    fn report(&self) -> i32 {
        for f in self.found.iter().filter(|f| !f.text.is_empty()) {
            println!("DIFFERENCE ({}):\n{}", f.kind, f.text);
        }
        if let Some(first) = FIRST.get() {
            println!("the first after {:.1} s", first.duration_since(self.began).as_secs_f64());
        }
        println!("{} unlisted differences, {:.0} s", self.found.len(), self.passed());
        !self.found.is_empty() as i32
    }
}

fn compare(words: &[String]) -> i32 {
    let seed: u64 = value(words, "--seed", "1").parse().expect("--seed is a number");
    let seconds: f64 = value(words, "--seconds", "100").parse().expect("--seconds is a number");
    let only = value(words, "--only", "");
    if !only.is_empty() && !KINDS.contains(&only) {
        println!("oracle: there is no kind {only}; the kinds are {}", KINDS.join(", "));
        return 2;
    }
    println!("seed {seed}, {seconds} seconds");
    let room = std::env::temp_dir().join(format!("oracle-{}", std::process::id()));
    let program = guests::program(Path::new(value(words, "--guestdt", "target/here/guestdt")), &room);
    if program.path.is_none() {
        println!("guestdt is not built: no guest is asked of it");
    }
    let mut run = Run {
        words,
        began: Instant::now(),
        seconds,
        cases: Cases::new(value(words, "--cases", "target/here/oracle_cases")),
        told: 0,
        model: Model::new(),
        program,
        draw: Draw::new(seed),
        found: Vec::new(),
    };
    for kind in KINDS {
        // A kind is left out once one before it has found a difference.
        if (only.is_empty() || only == kind) && run.found.is_empty() {
            run.kind(kind, only == kind);
        }
    }
    let _ = std::fs::remove_dir_all(&room);
    let status = run.report();
    run.cases.end();
    status
}
