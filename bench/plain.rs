//! `assemble`, `disasm` and `run` once more, in plain Rust, to measure the product against. It takes for
//! granted that what it reads is well-formed: it looks at no rule but where it would go wrong otherwise,
//! and names no line.
//!
//!     plain assemble SRC IMAGE
//!     plain disasm IMAGE
//!     plain run IMAGE PLAN SCRIPT STEPS
//!     plain inputs FOLDER        writes the inputs that are measured

use std::collections::{BTreeMap, HashMap};
use std::fmt::Write as _;
use std::io::Write as _;
use std::{env, fs, process};

const FUNCTIONS: [&str; 16] = [
    "NEG", "CALL", "INP", "READ", "ADDB", "ADDS", "SUBB", "SUBS", "XOR", "AND", "NOR", "ANDN",
    "SHIFT", "F13", "F14", "F15",
];
const COMPARISONS: [&str; 16] = [
    "LT", "GE", "EQ", "NE", "LE", "GT", "ULT", "UGE", "LTOR", "GEOR", "EQOR", "NEOR", "LEOR",
    "GTOR", "ULTOR", "UGEOR",
];
const DESTINATIONS: [&str; 8] = ["A", "X", "Y", "P", "PIF", "PNB", "OUT", "STO"];
const MODES: [&str; 4] = ["LIT", "MEM", "IDX", "IDY"];
const REGISTERS: [&str; 4] = ["A", "X", "Y", "P"];
const ADDRESSES: u32 = 1 << 20;

/// What isn't well-formed ends the program.
fn need<T>(value: Option<T>) -> T {
    value.unwrap_or_else(|| process::exit(3))
}

fn text(name: &str) -> String {
    fs::read_to_string(name).unwrap_or_else(|_| process::exit(4))
}

fn code(names: &[&str], name: &str) -> Option<u32> {
    names.iter().position(|n| *n == name).map(|at| at as u32)
}

fn hex(digits: &str, count: usize) -> Option<u32> {
    if digits.len() != count || !digits.bytes().all(|b| b.is_ascii_hexdigit()) {
        return None;
    }
    u32::from_str_radix(digits, 16).ok()
}

fn upper_hex(digits: &str, count: usize) -> Option<u32> {
    if digits.bytes().any(|b| b.is_ascii_lowercase()) {
        return None;
    }
    hex(digits, count)
}

fn is_label(token: &str) -> bool {
    token.len() <= 32
        && token.bytes().next().is_some_and(|b| b.is_ascii_lowercase())
        && token
            .bytes()
            .all(|b| b.is_ascii_lowercase() || b.is_ascii_digit() || b == b'_')
}

fn kept(text: &str) -> impl Iterator<Item = &str> {
    text.lines().filter(|l| !l.is_empty() && !l.starts_with('#'))
}

// ---- sources

struct Assembler<'a> {
    next: u32,
    words: BTreeMap<u32, (u32, Option<&'a str>)>,
    labels: HashMap<&'a str, u32>,
}

impl<'a> Assembler<'a> {
    fn place(&self, token: &str) -> Option<u32> {
        let at = if token == "+" { self.next } else { upper_hex(token, 5)? };
        (at < ADDRESSES && !self.words.contains_key(&at)).then_some(at)
    }

    fn line(&mut self, line: &'a str) -> Option<()> {
        let tokens: Vec<&str> = line.split(' ').collect();
        match tokens.as_slice() {
            ["label", label] => {
                let free = is_label(label) && self.next < ADDRESSES;
                (free && self.labels.insert(label, self.next).is_none()).then_some(())
            }
            [place, "WORD", digits] => {
                let at = self.place(place)?;
                self.add(at, upper_hex(digits, 8)?, None)
            }
            [place, name, r, m, d, field] => {
                let at = self.place(place)?;
                let operation = match code(&FUNCTIONS, name) {
                    Some(f) => f << 20,
                    None => 1 << 24 | code(&COMPARISONS, name)? << 20,
                };
                let word = code(&REGISTERS, r)? << 30
                    | code(&MODES, m)? << 28
                    | code(&DESTINATIONS, d)? << 25
                    | operation;
                if field.bytes().next().is_some_and(|b| b.is_ascii_lowercase()) {
                    is_label(field).then_some(())?;
                    self.add(at, word, Some(field))
                } else {
                    self.add(at, word | upper_hex(field, 5)?, None)
                }
            }
            _ => None,
        }
    }

    fn add(&mut self, at: u32, word: u32, label: Option<&'a str>) -> Option<()> {
        self.words.insert(at, (word, label));
        self.next = at + 1;
        Some(())
    }
}

fn assemble(source: &str, image: &str) {
    let source = text(source);
    let mut assembler = Assembler { next: 0, words: BTreeMap::new(), labels: HashMap::new() };
    for line in kept(&source) {
        need(assembler.line(line));
    }
    let mut out = String::new();
    for (at, (word, label)) in &assembler.words {
        let field = label.map_or(0, |l| *need(assembler.labels.get(l)));
        writeln!(out, "{at:05X} {:08X}", word | field).unwrap();
    }
    fs::write(image, out).unwrap_or_else(|_| process::exit(4));
    println!("words {}", assembler.words.len());
}

// ---- images

fn read_image(text: &str) -> Option<Vec<(u32, u32)>> {
    let mut words: Vec<(u32, u32)> = Vec::new();
    for line in text.lines() {
        let (at, word) = line.split_once(' ')?;
        let (at, word) = (hex(at, 5)?, hex(word, 8)?);
        if words.last().is_some_and(|last| at <= last.0) {
            return None;
        }
        words.push((at, word));
    }
    Some(words)
}

fn disasm(image: &str) {
    let words = need(read_image(&text(image)));
    let mut out = String::new();
    for (at, w) in words {
        let f = (w >> 20 & 15) as usize;
        let name = if w >> 24 & 1 == 1 { COMPARISONS[f] } else { FUNCTIONS[f] };
        let (r, m, d) = (w >> 30, w >> 28 & 3, w >> 25 & 7);
        writeln!(
            out,
            "{at:05X} {name} {} {} {} {:05X}",
            REGISTERS[r as usize],
            MODES[m as usize],
            DESTINATIONS[d as usize],
            w & 0xF_FFFF
        )
        .unwrap();
    }
    std::io::stdout().write_all(out.as_bytes()).unwrap();
}

// ---- runs

#[derive(Clone, Copy)]
struct Span {
    first: u32,
    last: u32,
    lo: i64,
    hi: i64,
    step: i64,
}

impl Span {
    fn has(&self, word: u32) -> bool {
        let n = i64::from(word as i32);
        let on_step = if self.step == 0 { n == self.lo } else { (n - self.lo) % self.step == 0 };
        self.lo <= n && n <= self.hi && on_step
    }
}

fn range(token: &str) -> Option<(i64, i64, i64)> {
    if token == "any" {
        return Some((i64::from(i32::MIN), i64::from(i32::MAX), 1));
    }
    let Some((lo, rest)) = token.split_once("..") else {
        let n = token.parse().ok()?;
        return Some((n, n, 0));
    };
    let (hi, step) = rest.split_once('/').unwrap_or((rest, "1"));
    Some((lo.parse().ok()?, hi.parse().ok()?, step.parse().ok()?))
}

struct Plan {
    profile: u32,
    data: Vec<Span>,
    inputs: Vec<Span>,
}

fn read_plan(text: &str) -> Option<Plan> {
    let mut plan = Plan { profile: 1, data: Vec::new(), inputs: Vec::new() };
    for line in kept(text) {
        let tokens: Vec<&str> = line.split(' ').collect();
        match tokens.as_slice() {
            ["profile", n] => plan.profile = n.parse().ok()?,
            [kind @ ("data" | "input" | "output"), first, last, numbers] => {
                let (lo, hi, step) = range(numbers)?;
                let span = Span { first: hex(first, 5)?, last: hex(last, 5)?, lo, hi, step };
                match *kind {
                    "data" => plan.data.push(span),
                    "input" => plan.inputs.push(span),
                    _ => {}
                }
            }
            _ => {}
        }
    }
    Some(plan)
}

struct Machine {
    a: u32,
    x: u32,
    y: u32,
    p: u32,
    b: bool,
    memory: Vec<u32>,
}

/// What ends a run before all its steps.
enum End {
    Stopped(&'static str),
    NoAnswer(u32),
    OutOfRange(u32, u32),
}

impl Machine {
    fn index(&self, m: u32) -> u32 {
        match m {
            2 => self.x,
            3 => self.y,
            _ => 0,
        }
    }

    fn register(&self, r: u32) -> u32 {
        match r {
            0 => self.a,
            1 => self.x,
            2 => self.y,
            _ => self.p + 1,
        }
    }

    /// One step, which may put something out.
    fn step(
        &mut self,
        plan: &Plan,
        answers: &mut std::slice::Iter<'_, u32>,
    ) -> Result<Option<(u32, u32)>, End> {
        if self.p == ADDRESSES - 1 {
            return Err(End::Stopped("end"));
        }
        let w = self.memory[self.p as usize];
        let (r, m, d, c, f) = (w >> 30, w >> 28 & 3, w >> 25 & 7, w >> 24 & 1, w >> 20 & 15);
        let field = w & 0xF_FFFF;
        let jump = c == 0 && (3..6).contains(&d);
        let work = c == 0 && d < 6;
        let illegal = c == 0
            && ((d > 5 && m == 0)
                || (d < 6 && f > 12)
                || (d < 3 && f == 1)
                || (jump && !matches!(f, 1 | 3 | 5 | 7)));
        if illegal {
            return Err(End::Stopped("illegal"));
        }
        if (d == 4 && jump && !self.b) || (d == 5 && jump && self.b) {
            self.p += 1;
            return Ok(None);
        }
        let shift = work && f == 12;
        let at = field.wrapping_add(self.index(m));
        if m != 0 && !shift && at >= ADDRESSES {
            return Err(End::Stopped("address"));
        }
        let word = self.register(r);
        if c == 0 && d == 6 {
            self.p += 1;
            return Ok(Some((at, word)));
        }
        if c == 0 && d == 7 {
            self.memory[at as usize] = word;
            self.p += 1;
            return Ok(None);
        }
        let operand = if shift || m == 0 {
            field
        } else if work && f == 2 {
            let Some(answer) = answers.as_slice().first() else {
                return Err(End::NoAnswer(at));
            };
            let span = plan.inputs.iter().find(|s| s.first <= at && at <= s.last);
            if span.is_some_and(|s| !s.has(*answer)) {
                return Err(End::OutOfRange(at, *answer));
            }
            answers.next();
            *answer
        } else {
            self.memory[at as usize]
        };
        if c == 1 {
            let (s, t) = (word as i32, operand as i32);
            let holds = match f & 7 {
                0 => s < t,
                1 => s >= t,
                2 => s == t,
                3 => s != t,
                4 => s <= t,
                5 => s > t,
                6 => word < operand,
                _ => word >= operand,
            };
            self.b = holds || (f > 7 && self.b);
            self.p += 1;
            return Ok(None);
        }
        let exact = |n: i64| i32::try_from(n).map(|n| n as u32).map_err(|_| End::Stopped("overflow"));
        let (s, t) = (i64::from(word as i32), i64::from(operand as i32));
        let mut b = self.b;
        let result = match (f, m) {
            (0, _) if plan.profile == 2 => exact(-t)?,
            (0, _) => operand.wrapping_neg(),
            (1..=3, _) => operand,
            (4, _) => {
                let (sum, carry) = word.overflowing_add(operand);
                b = carry;
                sum
            }
            (5, _) => exact(s + t)?,
            (6, _) => {
                let (difference, borrow) = word.overflowing_sub(operand);
                b = borrow;
                difference
            }
            (7, _) => exact(s - t)?,
            (8, _) => word ^ operand,
            (9, _) => word & operand,
            (10, _) => !(word | operand),
            (11, _) => word & !operand,
            (_, 0) => {
                if plan.profile == 2 {
                    b = word & 1 == 1;
                }
                (word as i32 >> 1) as u32
            }
            (_, 1) => {
                b = word & 1 == 1;
                word >> 1 | u32::from(self.b) << 31
            }
            (_, 2) => exact(2 * s)?,
            _ => {
                b = word >> 31 == 1;
                word << 1 | u32::from(self.b)
            }
        };
        if jump && result >= ADDRESSES {
            return Err(End::Stopped("target"));
        }
        if f == 1 {
            self.y = self.p + 1;
        }
        self.b = b;
        match d {
            0 => self.a = result,
            1 => self.x = result,
            2 => self.y = result,
            _ => {
                self.p = result;
                return Ok(None);
            }
        }
        self.p += 1;
        Ok(None)
    }
}

fn run(image: &str, plan: &str, script: &str, steps: u64) -> i32 {
    let words = need(read_image(&text(image)));
    let plan = need(read_plan(&text(plan)));
    let script = text(script);
    let mut lines = kept(&script);
    let state: Vec<&str> = need(lines.next()).split(' ').collect();
    let number = |at: usize, count: usize| need(state.get(at).and_then(|t| hex(t, count)));
    let answers: Vec<u32> = lines.map(|l| need(hex(l, 8))).collect();
    let mut memory = vec![0; ADDRESSES as usize];
    for span in plan.data.iter().rev() {
        memory[span.first as usize..=span.last as usize].fill(span.lo as i32 as u32);
    }
    for (at, word) in &words {
        memory[*at as usize] = *word;
    }
    let mut machine = Machine {
        p: number(1, 5),
        a: number(2, 8),
        x: number(3, 8),
        y: number(4, 8),
        b: state.get(5) == Some(&"1"),
        memory,
    };
    let mut answers = answers.iter();
    let mut out = String::new();
    for k in 0..steps {
        match machine.step(&plan, &mut answers) {
            Ok(None) => {}
            Ok(Some((at, word))) => writeln!(out, "out {k} {at:05X} {word:08X}").unwrap(),
            Err(end) => {
                match end {
                    End::Stopped(cause) => writeln!(out, "stopped {k} {cause}").unwrap(),
                    End::NoAnswer(at) => writeln!(out, "script ended {k} {at:05X}").unwrap(),
                    End::OutOfRange(at, w) => {
                        writeln!(out, "out of range {k} {at:05X} {w:08X}").unwrap()
                    }
                }
                std::io::stdout().write_all(out.as_bytes()).unwrap();
                return 1;
            }
        }
    }
    writeln!(
        out,
        "ran {steps} P {:05X} A {:08X} X {:08X} Y {:08X} B {}",
        machine.p,
        machine.a,
        machine.x,
        machine.y,
        u32::from(machine.b)
    )
    .unwrap();
    std::io::stdout().write_all(out.as_bytes()).unwrap();
    0
}

// ---- inputs

/// The words of a controller: it reads a sensor into a history of eight, takes the mean, and puts out a
/// number from 0 to 255.
const CONTROLLER: [u32; 41] = [
    0x0230_0007, 0x0030_0000, 0x2E00_0210, 0x4270_0001, 0x4110_0000, 0x0830_0002, 0x1E00_0200,
    0x1020_0010, 0x1230_0200, 0x2E00_0210, 0x4250_0001, 0x4140_0007, 0x0830_000E, 0x0230_0000,
    0x5E00_0200, 0x1030_0210, 0x1050_0211, 0x1050_0212, 0x1050_0213, 0x1050_0214, 0x1050_0215,
    0x1050_0216, 0x1050_0217, 0x00C0_0000, 0x00C0_0000, 0x00C0_0000, 0x0070_0800, 0x0610_001E,
    0x1C00_0011, 0x0630_0007, 0x00C0_0000, 0x00C0_0000, 0x00C0_0000, 0x0050_0080, 0x0110_0000,
    0x0830_0025, 0x0030_0000, 0x0140_00FF, 0x0830_0028, 0x0030_00FF, 0x8650_0000,
];

/// An image of 2^20 words; and the controller with its plan and a script of answers.
fn inputs(folder: &str) {
    let mut full = String::new();
    let mut word: u32 = 0x1234_5678;
    for at in 0..ADDRESSES {
        word = word.wrapping_mul(1_664_525).wrapping_add(1_013_904_223);
        writeln!(full, "{at:05X} {word:08X}").unwrap();
    }
    let mut controller = String::new();
    for (at, word) in CONTROLLER.iter().enumerate() {
        writeln!(controller, "{at:05X} {word:08X}").unwrap();
    }
    let plan = "code 00000 00028\ndata 00200 00200 0..7\ndata 00210 00217 0..4095\n\
        input 00010 00010 0..4095\noutput 00011 00011 0..255\nmarker 00000\nmarker 00007\n\
        start 00000 any any any any\n";
    let mut script = String::from("state 00000 00000000 00000000 00000000 0\n");
    for n in 0..100_000_u32 {
        writeln!(script, "{:08X}", n.wrapping_mul(2_654_435_761) >> 20).unwrap();
    }
    let write = |name: &str, content: &str| fs::write(format!("{folder}/{name}"), content).unwrap();
    write("full", &full);
    write("controller", &controller);
    write("plan", plan);
    write("script", &script);
}

fn main() {
    let words: Vec<String> = env::args().skip(1).collect();
    let words: Vec<&str> = words.iter().map(String::as_str).collect();
    match words.as_slice() {
        ["assemble", source, image] => assemble(source, image),
        ["disasm", image] => disasm(image),
        ["run", image, plan, script, steps] => {
            process::exit(run(image, plan, script, need(steps.parse().ok())))
        }
        ["inputs", folder] => inputs(folder),
        _ => process::exit(2),
    }
}
