//! What `dft seek` does, as a plain Rust program without contracts: the same options, the same two files, the same line. It is what
//! the built `dft` is timed beside and compared with, byte for byte (`bench/seek.sh`), and is written from the rules in
//! `docs/FORMATS.md` alone. It takes netlists of one module over the standard cells, which pass all checks; it refuses nothing well.
//!
//! By default a node costs what changed since the node before it: the values of the design and of the design with the fault stand
//! side by side, readers of changed nets are marked, and the marked ones are evaluated in order. With `--slow yes` each node is
//! evaluated anew over the whole design, as the definition reads.
//!
//!     rustc -O -o plain_seek bench/plain/seek.rs

use std::collections::HashMap;
use std::fmt::Write;

// ---- netlists

#[derive(Clone, Copy, PartialEq, Debug)]
enum Signal {
    Net(usize),
    Constant(bool),
    Open,
}

#[derive(Clone, Copy, PartialEq, Debug)]
enum Kind {
    Buf,
    Inv,
    And,
    Nand,
    Or,
    Nor,
    Xor,
    Xnor,
    Mux2,
    Tie0,
    Tie1,
}

enum Driver {
    Nothing,
    Input,
    Opaque,
    Gate(Kind, Vec<Signal>),
    Join(Signal),
    FlipFlop(usize, bool),
}

// Pins that a flip-flop has not are open; a reset and a set act at 0.
struct FlipFlop {
    name: String,
    clock: Signal,
    data: Signal,
    reset: Option<Signal>,
    set: Option<Signal>,
    outputs: [Signal; 2],
}

#[derive(Default)]
struct Design {
    nets: Vec<String>,
    by_name: HashMap<String, usize>,
    vectors: HashMap<String, (i64, i64)>,
    ports: Vec<(bool, Vec<usize>)>,
    drivers: Vec<Driver>,
    flip_flops: Vec<FlipFlop>,
}

fn stop(why: &str) -> ! {
    eprintln!("plain seek: {why}");
    std::process::exit(3)
}

// Words of a netlist: names, with `\` before an escaped one, numbers, constants and single marks.
fn tokens(text: &str) -> Vec<String> {
    let bytes = text.as_bytes();
    let (mut at, mut found) = (0, Vec::new());
    while at < bytes.len() {
        let rest = &text[at..];
        let word = |byte: u8| byte.is_ascii_alphanumeric() || byte == b'_' || byte == b'$';
        if bytes[at].is_ascii_whitespace() {
            at += 1;
        } else if rest.starts_with("//") || bytes[at] == b'`' {
            at += rest.find('\n').unwrap_or(rest.len());
        } else if rest.starts_with("/*") {
            at += 2 + rest[2..].find("*/").unwrap_or_else(|| stop("comment")) + 2;
        } else if rest.starts_with("(*") {
            at += 2 + rest[2..].find("*)").unwrap_or_else(|| stop("attribute")) + 2;
        } else if bytes[at] == b'\\' {
            let end = rest.find(|c: char| c.is_ascii_whitespace()).unwrap_or(rest.len());
            found.push(rest[..end].to_string());
            at += end;
        } else if word(bytes[at]) {
            let end = rest.bytes().position(|byte| !word(byte) && byte != b'\'').unwrap_or(rest.len());
            found.push(rest[..end].to_string());
            at += end;
        } else {
            found.push(rest[..1].to_string());
            at += 1;
        }
    }
    found
}

struct Reader {
    tokens: Vec<String>,
    at: usize,
    design: Design,
}

impl Reader {
    fn peek(&self) -> &str {
        self.tokens.get(self.at).map_or("", |token| token.as_str())
    }

    fn next(&mut self) -> String {
        self.at += 1;
        self.tokens.get(self.at - 1).cloned().unwrap_or_else(|| stop("end of text"))
    }

    fn takes(&mut self, token: &str) -> bool {
        let takes = self.peek() == token;
        self.at += takes as usize;
        takes
    }

    fn want(&mut self, token: &str) {
        if !self.takes(token) {
            stop(&format!("{token} in place of {}", self.peek()))
        }
    }

    fn name(&mut self) -> String {
        self.next().trim_start_matches('\\').to_string()
    }

    fn number(&mut self) -> i64 {
        self.next().parse().unwrap_or_else(|_| stop("number"))
    }

    fn range(&mut self) -> Option<(i64, i64)> {
        if !self.takes("[") {
            return None;
        }
        let left = self.number();
        self.want(":");
        let right = self.number();
        self.want("]");
        Some((left, right))
    }

    fn net(&mut self, name: &str) -> usize {
        if let Some(&net) = self.design.by_name.get(name) {
            return net;
        }
        let net = self.design.nets.len();
        self.design.nets.push(name.to_string());
        self.design.drivers.push(Driver::Nothing);
        self.design.by_name.insert(name.to_string(), net);
        net
    }

    // The nets of a declared name, the leftmost bit first.
    fn declare(&mut self, name: &str, range: Option<(i64, i64)>) -> Vec<usize> {
        match range {
            None => vec![self.net(name)],
            Some((left, right)) => {
                self.design.vectors.insert(name.to_string(), (left, right));
                self.bits(name, left, right)
            }
        }
    }

    fn bits(&mut self, name: &str, left: i64, right: i64) -> Vec<usize> {
        let step = if left < right { 1 } else { -1 };
        (0..=(left - right).abs()).map(|k| self.net(&format!("{name}[{}]", left + step * k))).collect()
    }

    fn constant(&mut self, text: &str) -> Vec<Signal> {
        let (size, rest) = text.split_once('\'').unwrap_or_else(|| stop("constant"));
        let base = match &rest[..1] {
            "b" | "B" => 2,
            "o" | "O" => 8,
            "d" | "D" => 10,
            _ => 16,
        };
        let digits = if rest.len() > 1 { rest[1..].to_string() } else { self.next() };
        let value = u128::from_str_radix(&digits.replace('_', ""), base).unwrap_or_else(|_| stop("digits"));
        let size: u32 = size.parse().unwrap_or_else(|_| stop("size"));
        (0..size).rev().map(|k| Signal::Constant(value >> k & 1 == 1)).collect()
    }

    // The signals of an expression, the leftmost first.
    fn expression(&mut self) -> Vec<Signal> {
        if self.takes("{") {
            let mut all = self.expression();
            while self.takes(",") {
                all.extend(self.expression());
            }
            self.want("}");
            return all;
        }
        let token = self.next();
        if token.as_bytes()[0].is_ascii_digit() {
            return self.constant(&token);
        }
        let name = token.trim_start_matches('\\').to_string();
        let Some(&(left, right)) = self.design.vectors.get(&name) else {
            return vec![Signal::Net(self.net(&name))];
        };
        let (mut first, mut last) = (left, right);
        if self.takes("[") {
            first = self.number();
            last = if self.takes(":") { self.number() } else { first };
            self.want("]");
        }
        self.bits(&name, first, last).into_iter().map(Signal::Net).collect()
    }

    fn drive(&mut self, signal: Signal, driver: Driver) {
        if let Signal::Net(net) = signal {
            self.design.drivers[net] = driver;
        }
    }

    // The header, and where its names are declared: each port has its nets before any other net.
    fn ports(&mut self) {
        let (mut names, mut declared) = (Vec::new(), HashMap::new());
        let (mut is_input, mut range) = (None, None);
        if self.takes("(") {
            while !self.takes(")") {
                if self.peek() == "input" || self.peek() == "output" {
                    is_input = Some(self.next() == "input");
                    self.takes("wire");
                    range = self.range();
                }
                let name = self.name();
                if let Some(is_input) = is_input {
                    declared.insert(name.clone(), (is_input, range));
                }
                names.push(name);
                self.takes(",");
            }
        }
        self.want(";");
        let start = self.at;
        while self.at < self.tokens.len() {
            let token = self.next();
            if token == "input" || token == "output" {
                self.takes("wire");
                let range = self.range();
                loop {
                    let name = self.name();
                    declared.insert(name, (token == "input", range));
                    if !self.takes(",") {
                        break;
                    }
                }
            }
        }
        self.at = start;
        for name in names {
            let (is_input, range) = *declared.get(&name).unwrap_or_else(|| stop("port"));
            let nets = self.declare(&name, range);
            if is_input {
                for &net in &nets {
                    self.design.drivers[net] = Driver::Input;
                }
            }
            self.design.ports.push((is_input, nets));
        }
    }

    fn item(&mut self) {
        let word = self.next();
        match word.as_str() {
            "input" | "output" => {
                while !self.takes(";") {
                    self.next();
                }
            }
            "wire" => {
                let range = self.range();
                loop {
                    let name = self.name();
                    self.declare(&name, range);
                    if self.takes(";") {
                        break;
                    }
                    self.want(",");
                }
            }
            "assign" => loop {
                let targets = self.expression();
                self.want("=");
                for (target, source) in targets.into_iter().zip(self.expression()) {
                    self.drive(target, Driver::Join(source));
                }
                if self.takes(";") {
                    break;
                }
                self.want(",");
            },
            "and" | "nand" | "or" | "nor" | "xor" | "xnor" | "buf" | "not" => loop {
                if self.peek() != "(" {
                    self.next();
                }
                self.want("(");
                let mut terminals = Vec::new();
                while !self.takes(")") {
                    terminals.push(self.expression()[0]);
                    self.takes(",");
                }
                let output = terminals.remove(0);
                self.drive(output, Driver::Gate(primitive(&word), terminals));
                if self.takes(";") {
                    break;
                }
                self.want(",");
            },
            _ => loop {
                let name = self.name();
                self.cell(&word, name);
                if self.takes(";") {
                    break;
                }
                self.want(",");
            },
        }
    }

    fn cell(&mut self, cell: &str, name: String) {
        let mut pins = HashMap::new();
        self.want("(");
        while !self.takes(")") {
            self.want(".");
            let pin = self.name();
            self.want("(");
            if self.peek() != ")" {
                let signal = self.expression()[0];
                pins.insert(pin, signal);
            }
            self.want(")");
            self.takes(",");
        }
        let pin = |name: &str| *pins.get(name).unwrap_or(&Signal::Open);
        match cell {
            "DFF" | "DFFR" | "DFFS" => {
                let number = self.design.flip_flops.len();
                let flip_flop = FlipFlop {
                    name,
                    clock: pin("CK"),
                    data: pin("D"),
                    reset: (cell == "DFFR").then(|| pin("RN")),
                    set: (cell == "DFFS").then(|| pin("SN")),
                    outputs: [pin("Q"), pin("QN")],
                };
                for (place, output) in flip_flop.outputs.into_iter().enumerate() {
                    self.drive(output, Driver::FlipFlop(number, place == 1));
                }
                self.design.flip_flops.push(flip_flop);
            }
            "CKGATE" => self.drive(pin("GCK"), Driver::Opaque),
            "LATCH" => self.drive(pin("Q"), Driver::Opaque),
            _ => {
                let (kind, inputs) = standard_gate(cell).unwrap_or_else(|| stop(&format!("cell {cell}")));
                self.drive(pin("Y"), Driver::Gate(kind, inputs.iter().map(|name| pin(name)).collect()));
            }
        }
    }
}

fn primitive(word: &str) -> Kind {
    match word {
        "and" => Kind::And,
        "nand" => Kind::Nand,
        "or" => Kind::Or,
        "nor" => Kind::Nor,
        "xor" => Kind::Xor,
        "xnor" => Kind::Xnor,
        "buf" => Kind::Buf,
        _ => Kind::Inv,
    }
}

// A gate of the standard cells, and its input pins.
fn standard_gate(cell: &str) -> Option<(Kind, &'static [&'static str])> {
    let letters: &[&str] = &["A", "B", "C", "D"];
    Some(match cell {
        "BUF" => (Kind::Buf, &letters[..1]),
        "INV" => (Kind::Inv, &letters[..1]),
        "XOR2" => (Kind::Xor, &letters[..2]),
        "XNOR2" => (Kind::Xnor, &letters[..2]),
        "MUX2" => (Kind::Mux2, &["A", "B", "S"]),
        "TIE0" => (Kind::Tie0, &[]),
        "TIE1" => (Kind::Tie1, &[]),
        _ => {
            let count: usize = cell.get(cell.len() - 1..)?.parse().ok()?;
            let kind = match &cell[..cell.len() - 1] {
                "AND" => Kind::And,
                "NAND" => Kind::Nand,
                "OR" => Kind::Or,
                "NOR" => Kind::Nor,
                _ => return None,
            };
            (kind, letters.get(..count)?)
        }
    })
}

fn read_netlist(text: &str) -> Design {
    let mut reader = Reader { tokens: tokens(text), at: 0, design: Design::default() };
    reader.want("module");
    reader.next();
    reader.ports();
    while !reader.takes("endmodule") {
        reader.item();
    }
    reader.design
}

// ---- configurations

enum Value {
    Text(String),
    List(Vec<Value>),
    Other,
}

struct Toml<'a> {
    text: &'a [u8],
    at: usize,
}

impl Toml<'_> {
    fn blanks(&mut self) {
        while let Some(&byte) = self.text.get(self.at) {
            if byte == b'#' {
                while self.text.get(self.at).is_some_and(|&byte| byte != b'\n') {
                    self.at += 1;
                }
            } else if byte.is_ascii_whitespace() {
                self.at += 1;
            } else {
                break;
            }
        }
    }

    fn until(&mut self, ends: &[u8]) -> String {
        let start = self.at;
        while self.text.get(self.at).is_some_and(|byte| !ends.contains(byte)) {
            self.at += 1;
        }
        String::from_utf8_lossy(&self.text[start..self.at]).trim().to_string()
    }

    fn value(&mut self) -> Value {
        self.blanks();
        match self.text.get(self.at) {
            Some(&quote) if quote == b'"' || quote == b'\'' => {
                self.at += 1;
                let text = self.until(&[quote]);
                self.at += 1;
                Value::Text(if quote == b'"' { text.replace("\\\\", "\\") } else { text })
            }
            Some(b'[') => {
                let mut all = Vec::new();
                self.at += 1;
                loop {
                    self.blanks();
                    match self.text.get(self.at) {
                        Some(b']') | None => break,
                        Some(b',') => self.at += 1,
                        _ => all.push(self.value()),
                    }
                }
                self.at += 1;
                Value::List(all)
            }
            Some(b'{') => {
                self.until(b"}");
                self.at += 1;
                Value::Other
            }
            _ => {
                self.until(b",]}\n#");
                Value::Other
            }
        }
    }
}

// The names of a key at the top of a configuration.
fn names_of(text: &str, wanted: &str) -> Vec<String> {
    let mut toml = Toml { text: text.as_bytes(), at: 0 };
    loop {
        toml.blanks();
        if matches!(toml.text.get(toml.at), None | Some(b'[')) {
            return Vec::new();
        }
        let key = toml.until(b"=");
        toml.at += 1;
        let value = toml.value();
        if key == wanted {
            let Value::List(all) = value else { stop(wanted) };
            return all.into_iter().filter_map(|value| if let Value::Text(text) = value { Some(text) } else { None }).collect();
        }
    }
}

// ---- scanned cells and faults

#[derive(Clone, Copy, PartialEq)]
enum Root {
    Port(usize),
    Constant(bool),
    Other,
}

impl Design {
    // The clock port that a signal shows through buffers, joins and inverters, and whether it is inverted.
    fn clock_root(&self, mut signal: Signal) -> Option<(usize, bool)> {
        let mut inverted = false;
        loop {
            let Signal::Net(net) = signal else { return None };
            signal = match &self.drivers[net] {
                Driver::Input => return Some((net, inverted)),
                Driver::Join(source) => *source,
                Driver::Gate(Kind::Buf, inputs) => inputs[0],
                Driver::Gate(Kind::Inv, inputs) => {
                    inverted = !inverted;
                    inputs[0]
                }
                _ => return None,
            };
        }
    }

    // What a signal traces to through buffers and joins.
    fn root(&self, mut signal: Signal) -> Root {
        loop {
            let net = match signal {
                Signal::Net(net) => net,
                Signal::Constant(bit) => return Root::Constant(bit),
                Signal::Open => return Root::Other,
            };
            signal = match &self.drivers[net] {
                Driver::Input => return Root::Port(net),
                Driver::Join(source) => *source,
                Driver::Gate(Kind::Buf, inputs) => inputs[0],
                Driver::Gate(Kind::Tie0, _) => return Root::Constant(false),
                Driver::Gate(Kind::Tie1, _) => return Root::Constant(true),
                _ => return Root::Other,
            };
        }
    }
}

struct Config {
    domains: Vec<usize>,
    resets: Vec<usize>,
    keep: Vec<String>,
}

// The scanned cells by chain and place, each with its domain and whether it falls: the falling ones by domain, then the rising ones.
fn scanned(design: &Design, config: &Config) -> Vec<(usize, usize, bool)> {
    let mut cells = Vec::new();
    for (number, flip_flop) in design.flip_flops.iter().enumerate() {
        let Some((port, falling)) = design.clock_root(flip_flop.clock) else { continue };
        let Some(domain) = config.domains.iter().position(|&other| other == port) else { continue };
        let rests = |pin: Option<Signal>| match pin.map(|signal| design.root(signal)) {
            None | Some(Root::Constant(true)) => true,
            Some(Root::Port(port)) => config.resets.contains(&port),
            Some(_) => false,
        };
        if rests(flip_flop.reset) && rests(flip_flop.set) && !config.keep.contains(&flip_flop.name) {
            cells.push((number, domain, falling));
        }
    }
    cells.sort_by_key(|&(number, domain, falling)| (!falling, domain, number));
    cells
}

// Both faults of each net that is driven, is no bit of an input, shows no domain and traces to no reset.
fn faults(design: &Design, config: &Config) -> Vec<(usize, bool)> {
    let mut all = Vec::new();
    for net in 0..design.nets.len() {
        let is_driven = !matches!(design.drivers[net], Driver::Nothing | Driver::Input);
        let is_clock = design.clock_root(Signal::Net(net)).is_some_and(|(port, _)| config.domains.contains(&port));
        let is_reset = matches!(design.root(Signal::Net(net)), Root::Port(port) if config.resets.contains(&port));
        if is_driven && !is_clock && !is_reset {
            all.extend([(net, false), (net, true)]);
        }
    }
    all
}

// ---- values

#[derive(Clone, Copy, PartialEq, Debug)]
enum Tri {
    Zero,
    One,
    Unknown,
}
use Tri::{One, Unknown, Zero};

fn known(bit: bool) -> Tri {
    if bit { One } else { Zero }
}

fn not(value: Tri) -> Tri {
    match value {
        Zero => One,
        One => Zero,
        Unknown => Unknown,
    }
}

fn not_if(inverts: bool, value: Tri) -> Tri {
    if inverts { not(value) } else { value }
}

fn join(a: Tri, b: Tri) -> Tri {
    if a == b { a } else { Unknown }
}

fn value_of(signal: Signal, values: &[Tri]) -> Tri {
    match signal {
        Signal::Net(net) => values[net],
        Signal::Constant(bit) => known(bit),
        Signal::Open => Unknown,
    }
}

// Zero where some input is `decides`, the other bit where all are known to be that one.
fn all_of(inputs: &[Signal], values: &[Tri], decides: Tri) -> Tri {
    let mut unknown = false;
    for &input in inputs {
        let value = value_of(input, values);
        if value == decides {
            return decides;
        }
        unknown |= value == Unknown;
    }
    if unknown { Unknown } else { not(decides) }
}

fn sum_of(inputs: &[Signal], values: &[Tri]) -> Tri {
    let mut sum = false;
    for &input in inputs {
        match value_of(input, values) {
            Unknown => return Unknown,
            value => sum ^= value == One,
        }
    }
    known(sum)
}

fn gate(kind: Kind, inputs: &[Signal], values: &[Tri]) -> Tri {
    match kind {
        Kind::Buf => value_of(inputs[0], values),
        Kind::Inv => not(value_of(inputs[0], values)),
        Kind::And => all_of(inputs, values, Zero),
        Kind::Nand => not(all_of(inputs, values, Zero)),
        Kind::Or => all_of(inputs, values, One),
        Kind::Nor => not(all_of(inputs, values, One)),
        Kind::Xor => sum_of(inputs, values),
        Kind::Xnor => not(sum_of(inputs, values)),
        Kind::Mux2 => match value_of(inputs[2], values) {
            Zero => value_of(inputs[0], values),
            One => value_of(inputs[1], values),
            Unknown => join(value_of(inputs[0], values), value_of(inputs[1], values)),
        },
        Kind::Tie0 => Zero,
        Kind::Tie1 => One,
    }
}

// A value where a reset or a set pin has another one.
fn forced(pin: Option<Signal>, bit: Tri, values: &[Tri], next: Tri) -> Tri {
    match pin.map_or(One, |signal| value_of(signal, values)) {
        Zero => bit,
        One => next,
        Unknown => join(bit, next),
    }
}

fn next_of(flip_flop: &FlipFlop, values: &[Tri]) -> Tri {
    let next = value_of(flip_flop.data, values);
    forced(flip_flop.reset, Zero, values, forced(flip_flop.set, One, values, next))
}

// ---- searches

#[derive(Clone, Copy, PartialEq, Debug)]
enum Variable {
    Cell(usize),
    Port(usize),
}

#[derive(Clone, Copy, PartialEq, Debug)]
enum Point {
    Output(usize),
    Response(usize),
}

enum Found {
    Cube(Vec<(Variable, bool)>),
    NotTestable,
    Aborted,
}

#[derive(Clone, Copy, PartialEq)]
enum Verdict {
    Found,
    Dead,
    Open,
}

// What is the same for all faults. A flip-flop's `takes` is 1 where it takes its next value at the rise of the clock, 2 at the fall.
struct Bench<'a> {
    design: &'a Design,
    config: &'a Config,
    cells: Vec<(usize, usize, bool)>,
    ports: Vec<usize>,
    is_scanned: Vec<bool>,
    takes: Vec<u8>,
    has_falling: bool,
    order: Vec<usize>,
    rank: Vec<usize>,
    readers: Vec<Vec<usize>>,
    takers: Vec<Vec<usize>>,
    first: Vec<Tri>,
    second: Vec<Tri>,
}

fn reads(driver: &Driver) -> &[Signal] {
    match driver {
        Driver::Gate(_, inputs) => inputs,
        Driver::Join(source) => std::slice::from_ref(source),
        _ => &[],
    }
}

fn taken_nets(flip_flop: &FlipFlop) -> impl Iterator<Item = usize> + '_ {
    let pins = [Some(flip_flop.data), flip_flop.reset, flip_flop.set];
    pins.into_iter().flatten().filter_map(|signal| if let Signal::Net(net) = signal { Some(net) } else { None })
}

fn output_nets(flip_flop: &FlipFlop) -> impl Iterator<Item = (usize, bool)> + '_ {
    flip_flop.outputs.iter().zip([false, true]).filter_map(|(&signal, inverted)| if let Signal::Net(net) = signal { Some((net, inverted)) } else { None })
}

// Each net after those that its gate or join reads.
fn order_of(design: &Design) -> Vec<usize> {
    let count = design.nets.len();
    let mut waits = vec![0; count];
    let mut readers = vec![Vec::new(); count];
    for (net, driver) in design.drivers.iter().enumerate() {
        for signal in reads(driver) {
            if let Signal::Net(source) = *signal {
                waits[net] += 1;
                readers[source].push(net);
            }
        }
    }
    let mut order: Vec<usize> = (0..count).filter(|&net| waits[net] == 0).collect();
    let mut at = 0;
    while at < order.len() {
        for &reader in &readers[order[at]] {
            waits[reader] -= 1;
            if waits[reader] == 0 {
                order.push(reader);
            }
        }
        at += 1;
    }
    if order.len() < count {
        stop("a loop");
    }
    order
}

impl<'a> Bench<'a> {
    fn prepare(design: &'a Design, config: &'a Config, domain: usize) -> Bench<'a> {
        let count = design.nets.len();
        let cells = scanned(design, config);
        let mut is_scanned = vec![false; design.flip_flops.len()];
        let mut takes = vec![0; design.flip_flops.len()];
        for &(cell, of, falling) in &cells {
            is_scanned[cell] = true;
            if of == domain {
                takes[cell] = 1 + falling as u8;
            }
        }
        let order = order_of(design);
        let mut rank = vec![0; count];
        for (place, &net) in order.iter().enumerate() {
            rank[net] = place;
        }
        let mut readers = vec![Vec::new(); count];
        for &net in &order {
            for signal in reads(&design.drivers[net]) {
                if let Signal::Net(source) = *signal {
                    if readers[source].last() != Some(&net) {
                        readers[source].push(net);
                    }
                }
            }
        }
        let mut takers = vec![Vec::new(); count];
        for (cell, flip_flop) in design.flip_flops.iter().enumerate() {
            if takes[cell] != 0 {
                for net in taken_nets(flip_flop) {
                    takers[net].push(cell);
                }
            }
        }
        let mut ports = Vec::new();
        for (is_input, nets) in &design.ports {
            for &net in nets {
                if *is_input && !config.domains.contains(&net) && !config.resets.contains(&net) {
                    ports.push(net);
                }
            }
        }
        let has_falling = takes.contains(&2);
        let mut bench =
            Bench { design, config, cells, ports, is_scanned, takes, has_falling, order, rank, readers, takers, first: vec![], second: vec![] };
        let given = vec![Unknown; design.flip_flops.len()];
        bench.first = bench.settled(&given, &vec![Unknown; count], None);
        bench.second = bench.settled(&bench.moved(&given, &bench.first), &vec![Unknown; count], None);
        bench
    }

    // The settled values for these flip-flops and ports; clocks are 0 and resets 1.
    fn settled(&self, cells: &[Tri], ports: &[Tri], fault: Option<(usize, bool)>) -> Vec<Tri> {
        let mut values = vec![Unknown; self.design.nets.len()];
        for &net in &self.order {
            values[net] = match &self.design.drivers[net] {
                Driver::Input if self.config.domains.contains(&net) => Zero,
                Driver::Input if self.config.resets.contains(&net) => One,
                Driver::Input => ports[net],
                Driver::Nothing | Driver::Opaque => Unknown,
                Driver::Gate(kind, inputs) => gate(*kind, inputs, &values),
                Driver::Join(source) => value_of(*source, &values),
                Driver::FlipFlop(cell, inverted) if self.is_scanned[*cell] => not_if(*inverted, cells[*cell]),
                Driver::FlipFlop(..) => Unknown,
            };
            if let Some((site, bit)) = fault {
                if net == site {
                    values[net] = known(bit);
                }
            }
        }
        values
    }

    // The flip-flops once the rising ones of the domain have taken their next values.
    fn moved(&self, cells: &[Tri], values: &[Tri]) -> Vec<Tri> {
        (0..cells.len()).map(|cell| if self.takes[cell] == 1 { next_of(&self.design.flip_flops[cell], values) } else { cells[cell] }).collect()
    }

    // The nets that walks lead to from a net.
    fn ahead(&self, from: usize) -> Vec<bool> {
        let mut is_ahead = vec![false; self.design.nets.len()];
        let mut left = vec![from];
        while let Some(net) = left.pop() {
            if !std::mem::replace(&mut is_ahead[net], true) {
                left.extend(&self.readers[net]);
                if self.has_falling {
                    let rising = self.takers[net].iter().filter(|&&cell| self.takes[cell] == 1);
                    left.extend(rising.flat_map(|&cell| output_nets(&self.design.flip_flops[cell])).map(|(net, _)| net));
                }
            }
        }
        is_ahead
    }

    // The nets from which walks lead to some of these.
    fn behind(&self, mut left: Vec<usize>) -> Vec<bool> {
        let mut is_behind = vec![false; self.design.nets.len()];
        while let Some(net) = left.pop() {
            if !std::mem::replace(&mut is_behind[net], true) {
                let driver = &self.design.drivers[net];
                left.extend(reads(driver).iter().filter_map(|signal| if let Signal::Net(net) = *signal { Some(net) } else { None }));
                if let Driver::FlipFlop(cell, _) = driver {
                    if self.has_falling && self.takes[*cell] == 1 {
                        left.extend(taken_nets(&self.design.flip_flops[*cell]));
                    }
                }
            }
        }
        is_behind
    }

    // The points that are reached, the variables, and the nets that these points hang on.
    fn cone(&self, site: usize) -> (Vec<Point>, Vec<Variable>, Vec<bool>) {
        let is_ahead = self.ahead(site);
        let mut points = Vec::new();
        for (is_input, nets) in &self.design.ports {
            if !is_input {
                points.extend(nets.iter().filter(|&&net| is_ahead[net]).map(|&net| Point::Output(net)));
            }
        }
        for &(cell, _, _) in &self.cells {
            if self.takes[cell] != 0 && taken_nets(&self.design.flip_flops[cell]).any(|net| is_ahead[net]) {
                points.push(Point::Response(cell));
            }
        }
        let mut ends = Vec::new();
        for &point in &points {
            match point {
                Point::Output(net) => ends.push(net),
                Point::Response(cell) => ends.extend(taken_nets(&self.design.flip_flops[cell])),
            }
        }
        let is_behind = self.behind(ends);
        let mut variables = Vec::new();
        for &(cell, _, _) in &self.cells {
            if output_nets(&self.design.flip_flops[cell]).any(|(net, _)| is_behind[net]) {
                variables.push(Variable::Cell(cell));
            }
        }
        variables.extend(self.ports.iter().filter(|&&net| is_behind[net]).map(|&net| Variable::Port(net)));
        (points, variables, is_behind)
    }
}

// The verdict on a node, by whether some point differs, all points agree, the site stays, and every variable has a bit.
fn verdict(differs: bool, agree: bool, stays: bool, is_whole: bool) -> Verdict {
    if differs {
        Verdict::Found
    } else if stays || agree || is_whole {
        Verdict::Dead
    } else {
        Verdict::Open
    }
}

// Walks the tree of a search, depth first and 0 before 1.
fn search(limit: u32, variables: &[Variable], mut look: impl FnMut(&[bool]) -> Verdict) -> Found {
    let (mut bits, mut dead) = (Vec::new(), 0);
    loop {
        match look(&bits) {
            Verdict::Found => return Found::Cube(variables.iter().copied().zip(bits).collect()),
            Verdict::Open => {
                bits.push(false);
                continue;
            }
            Verdict::Dead => dead += 1,
        }
        if dead > limit {
            return Found::Aborted;
        }
        while bits.last() == Some(&true) {
            bits.pop();
        }
        match bits.last_mut() {
            Some(bit) => *bit = true,
            None => return Found::NotTestable,
        }
    }
}

// ---- each node anew

fn seek_slowly(bench: &Bench, site: usize, bit: bool, limit: u32) -> Found {
    let (points, variables, _) = bench.cone(site);
    let flip_flops = &bench.design.flip_flops;
    search(limit, &variables, |bits| {
        let mut cells = vec![Unknown; flip_flops.len()];
        let mut ports = vec![Unknown; bench.design.nets.len()];
        for (variable, &bit) in variables.iter().zip(bits) {
            match *variable {
                Variable::Cell(cell) => cells[cell] = known(bit),
                Variable::Port(net) => ports[net] = known(bit),
            }
        }
        let both = [None, Some((site, bit))].map(|fault| {
            let first = bench.settled(&cells, &ports, fault);
            let second = bench.settled(&bench.moved(&cells, &first), &ports, fault);
            (first, second)
        });
        let at = |point: Point, (first, second): &(Vec<Tri>, Vec<Tri>)| match point {
            Point::Output(net) => first[net],
            Point::Response(cell) => next_of(&flip_flops[cell], if bench.takes[cell] == 2 { second } else { first }),
        };
        let pairs: Vec<(Tri, Tri)> = points.iter().map(|&point| (at(point, &both[0]), at(point, &both[1]))).collect();
        let differs = pairs.iter().any(|&(good, bad)| good != Unknown && bad != Unknown && good != bad);
        let agree = pairs.iter().all(|&(good, bad)| good != Unknown && good == bad);
        let stays = both[0].0[site] == known(bit) && (!bench.has_falling || both[0].1[site] == known(bit));
        verdict(differs, agree, stays, bits.len() == variables.len())
    })
}

// ---- from node to node

// Marks of nets, by their places in the order.
struct Marks {
    words: Vec<u64>,
    lowest: usize,
}

impl Marks {
    fn mark(&mut self, place: usize) {
        self.words[place / 64] |= 1 << (place % 64);
        self.lowest = self.lowest.min(place / 64);
    }

    fn take(&mut self) -> Option<usize> {
        while self.lowest < self.words.len() {
            let word = self.words[self.lowest];
            if word != 0 {
                self.words[self.lowest] = word & (word - 1);
                return Some(self.lowest * 64 + word.trailing_zeros() as usize);
            }
            self.lowest += 1;
        }
        None
    }
}

// The values of the design and of the design with the fault, before the rise or before the fall.
struct Pair {
    good: Vec<Tri>,
    bad: Vec<Tri>,
    marks: Marks,
}

impl Pair {
    fn new(count: usize) -> Pair {
        Pair { good: vec![Unknown; count], bad: vec![Unknown; count], marks: Marks { words: vec![0; count.div_ceil(64)], lowest: usize::MAX } }
    }
}

struct Stepper<'a> {
    bench: &'a Bench<'a>,
    pairs: [Pair; 2],
    state: Vec<u8>,
    output_state: Vec<u8>,
    needed: Vec<bool>,
    is_seen: Vec<bool>,
    is_point: Vec<bool>,
    differing: usize,
    agreeing: usize,
    site: usize,
    bit: bool,
    dirty: Vec<usize>,
}

// 0: not both known; 1: they differ; 2: they agree.
fn compared(good: Tri, bad: Tri) -> u8 {
    if good == Unknown || bad == Unknown {
        0
    } else if good == bad {
        2
    } else {
        1
    }
}

impl<'a> Stepper<'a> {
    fn new(bench: &'a Bench<'a>) -> Stepper<'a> {
        let (count, cells) = (bench.design.nets.len(), bench.design.flip_flops.len());
        Stepper {
            bench,
            pairs: [Pair::new(count), Pair::new(count)],
            state: vec![0; cells],
            output_state: vec![0; count],
            needed: vec![false; count],
            is_seen: vec![false; count],
            is_point: vec![false; cells],
            differing: 0,
            agreeing: 0,
            site: 0,
            bit: false,
            dirty: Vec::new(),
        }
    }

    fn count(&mut self, old: u8, new: u8) {
        self.differing = self.differing + (new == 1) as usize - (old == 1) as usize;
        self.agreeing = self.agreeing + (new == 2) as usize - (old == 2) as usize;
    }

    // Gives a net its two values, and tells all that hangs on it.
    fn set(&mut self, moment: usize, net: usize, good: Tri, bad: Tri) {
        let bench = self.bench;
        let bad = if net == self.site { known(self.bit) } else { bad };
        let pair = &mut self.pairs[moment];
        if pair.good[net] == good && pair.bad[net] == bad {
            return;
        }
        pair.good[net] = good;
        pair.bad[net] = bad;
        for &reader in &bench.readers[net] {
            if self.needed[reader] {
                pair.marks.mark(bench.rank[reader]);
            }
        }
        if moment == 0 && self.is_seen[net] {
            let (old, new) = (self.output_state[net], compared(good, bad));
            self.output_state[net] = new;
            self.count(old, new);
        }
        for &cell in &bench.takers[net] {
            if bench.takes[cell] as usize == moment + 1 {
                self.respond(moment, cell);
            }
        }
    }

    // A cell takes other values: its response, and where it rises before others fall its outputs.
    fn respond(&mut self, moment: usize, cell: usize) {
        if self.is_point[cell] {
            let flip_flop = &self.bench.design.flip_flops[cell];
            let pair = &self.pairs[moment];
            let (old, new) = (self.state[cell], compared(next_of(flip_flop, &pair.good), next_of(flip_flop, &pair.bad)));
            self.state[cell] = new;
            self.count(old, new);
        }
        if moment == 0 && self.bench.has_falling {
            self.dirty.push(cell);
        }
    }

    fn sweep(&mut self, moment: usize) {
        let bench = self.bench;
        while let Some(place) = self.pairs[moment].marks.take() {
            let net = bench.order[place];
            let pair = &self.pairs[moment];
            let (good, bad) = match &bench.design.drivers[net] {
                Driver::Gate(kind, inputs) => (gate(*kind, inputs, &pair.good), gate(*kind, inputs, &pair.bad)),
                Driver::Join(source) => (value_of(*source, &pair.good), value_of(*source, &pair.bad)),
                _ => (pair.good[net], pair.bad[net]),
            };
            self.set(moment, net, good, bad);
        }
    }

    fn settle(&mut self) {
        self.sweep(0);
        while let Some(cell) = self.dirty.pop() {
            let flip_flop = &self.bench.design.flip_flops[cell];
            let (good, bad) = (next_of(flip_flop, &self.pairs[0].good), next_of(flip_flop, &self.pairs[0].bad));
            self.give(1, cell, good, bad);
        }
        if self.bench.has_falling {
            self.sweep(1);
        }
    }

    fn give(&mut self, moment: usize, cell: usize, good: Tri, bad: Tri) {
        for (net, inverted) in output_nets(&self.bench.design.flip_flops[cell]) {
            if self.needed[net] {
                self.set(moment, net, not_if(inverted, good), not_if(inverted, bad));
            }
        }
    }

    fn assign(&mut self, variable: Variable, value: Tri) {
        match variable {
            Variable::Cell(cell) => {
                self.give(0, cell, value, value);
                if self.bench.has_falling && self.bench.takes[cell] != 1 {
                    self.give(1, cell, value, value);
                }
            }
            Variable::Port(net) => {
                self.set(0, net, value, value);
                if self.bench.has_falling {
                    self.set(1, net, value, value);
                }
            }
        }
    }

    fn seek(&mut self, site: usize, bit: bool, limit: u32) -> Found {
        let bench = self.bench;
        let (points, variables, needed) = bench.cone(site);
        if points.is_empty() {
            return if limit == 0 { Found::Aborted } else { Found::NotTestable };
        }
        (self.needed, self.site, self.bit) = (needed, site, bit);
        (self.differing, self.agreeing) = (0, 0);
        for moment in 0..2 {
            let base = if moment == 0 { &bench.first } else { &bench.second };
            self.pairs[moment].good.copy_from_slice(base);
            self.pairs[moment].bad.copy_from_slice(base);
        }
        self.is_point.fill(false);
        self.is_seen.fill(false);
        for &point in &points {
            match point {
                Point::Output(net) => {
                    let state = compared(bench.first[net], bench.first[net]);
                    self.is_seen[net] = true;
                    self.output_state[net] = state;
                    self.count(0, state);
                }
                Point::Response(cell) => {
                    let values = if bench.takes[cell] == 2 { &bench.second } else { &bench.first };
                    let next = next_of(&bench.design.flip_flops[cell], values);
                    self.is_point[cell] = true;
                    self.state[cell] = compared(next, next);
                    self.count(0, self.state[cell]);
                }
            }
        }
        for moment in 0..1 + bench.has_falling as usize {
            let good = self.pairs[moment].good[site];
            self.set(moment, site, good, good);
        }
        self.settle();
        let mut given: Vec<bool> = Vec::new();
        search(limit, &variables, |bits| {
            let same = given.iter().zip(bits).take_while(|(a, b)| a == b).count();
            for place in (bits.len()..given.len()).rev() {
                self.assign(variables[place], Unknown);
            }
            for place in same..bits.len() {
                self.assign(variables[place], known(bits[place]));
            }
            given.clear();
            given.extend_from_slice(bits);
            self.settle();
            let stays = self.pairs[0].good[site] == known(bit) && (!bench.has_falling || self.pairs[1].good[site] == known(bit));
            verdict(self.differing > 0, self.agreeing == points.len(), stays, bits.len() == variables.len())
        })
    }
}

// ---- the program

fn main() {
    let words: Vec<String> = std::env::args().skip(1).filter(|word| word != "seek").collect();
    let options: HashMap<&str, &str> = words.chunks(2).map(|pair| (pair[0].trim_start_matches("--"), pair[1].as_str())).collect();
    let option = |name: &str| *options.get(name).unwrap_or_else(|| stop(&format!("no --{name}")));
    let load = |name: &str| std::fs::read_to_string(option(name)).unwrap_or_else(|_| stop(&format!("cannot load --{name}")));
    let text = load("config");
    let design = read_netlist(&load("netlist"));
    let nets = |key: &str| names_of(&text, key).iter().map(|name| design.by_name[name.as_str()]).collect::<Vec<usize>>();
    let config = Config { domains: nets("domains"), resets: nets("resets"), keep: names_of(&text, "keep") };
    let clock = option("clock");
    let domain = config.domains.iter().position(|&net| design.nets[net] == clock).unwrap_or_else(|| stop("clock"));
    let limit: u32 = option("limit").parse().unwrap_or_else(|_| stop("limit"));
    let bench = Bench::prepare(&design, &config, domain);
    let mut stepper = Stepper::new(&bench);
    let (mut cubes, mut lines, mut counts) = (String::new(), String::new(), [0; 3]);
    let faults = faults(&design, &config);
    for (number, &(site, bit)) in faults.iter().enumerate() {
        let found = if options.contains_key("slow") { seek_slowly(&bench, site, bit, limit) } else { stepper.seek(site, bit, limit) };
        write!(lines, "fault {} {} ", design.nets[site], bit as u8).unwrap();
        match found {
            Found::Cube(given) => {
                counts[0] += 1;
                writeln!(cubes, "cube s{number} {clock}").unwrap();
                for (variable, bit) in given {
                    match variable {
                        Variable::Cell(cell) => writeln!(cubes, "cell {} {}", design.flip_flops[cell].name, bit as u8).unwrap(),
                        Variable::Port(net) => writeln!(cubes, "port {} {}", design.nets[net], bit as u8).unwrap(),
                    }
                }
                cubes.push_str("end\n");
                writeln!(lines, "cube s{number}").unwrap();
            }
            Found::NotTestable => {
                counts[1] += 1;
                lines.push_str("not-testable\n");
            }
            Found::Aborted => {
                counts[2] += 1;
                lines.push_str("aborted\n");
            }
        }
    }
    let told = format!("faults {} cubes {} not-testable {} aborted {}\n", faults.len(), counts[0], counts[1], counts[2]);
    std::fs::write(option("out-cubes"), &cubes).unwrap_or_else(|_| stop("cannot save the cubes"));
    std::fs::write(option("out-report"), format!("seek report 1\n{told}{lines}")).unwrap_or_else(|_| stop("cannot save the report"));
    print!("seek {told}");
}
