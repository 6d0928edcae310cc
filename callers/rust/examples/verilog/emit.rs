//! Verilog of memories and of a log's cells: one wire for each net, named by its number. X stands for what is not defined, so that a simulator with X tells
//! what is; `YOSYS` is the form with two values, in which `known` says of each output bit whether it is defined.

use tablegoose::{Cell, Control, Controls, Entry, FlipFlop, Memory, Net, ReadPort, Relation, Trit, wide_log2};

/// An edge out of x at time 0 is none, and a mask of x may write.
pub const MACROS: &str = "`timescale 1ns/1ns
`ifdef YOSYS
`define LIVE 1'b1
`define MAYBE(mask) (mask)
`else
`define LIVE ($time > 0)
`define MAYBE(mask) ((mask) !== 1'b0)
`endif
";

pub fn net(net: Net) -> String {
    match net {
        Net::ZERO => "1'b0".into(),
        Net::ONE => "1'b1".into(),
        Net::X => "1'bx".into(),
        Net(number) => format!("n{number}"),
    }
}

/// A value, highest bit first; it has a bit.
pub fn value(nets: &[Net]) -> String {
    let names: Vec<String> = nets.iter().rev().map(|&bit| net(bit)).collect();
    format!("{{{}}}", names.join(", "))
}

/// The letters of a word of a `$readmemb` file, highest bit first.
pub fn word(trits: &[Trit]) -> String {
    trits.iter().rev().map(|trit| ["0", "1", "x"][trit.code() as usize]).collect()
}

fn constant(trits: &[Trit]) -> String {
    format!("{}'b{}", trits.len(), word(trits))
}

/// A 1 for each trit that is known.
fn known(trits: &[Trit]) -> Vec<Trit> {
    trits.iter().map(|&trit| if trit == Trit::X { Trit::Zero } else { Trit::One }).collect()
}

fn level(control: Control) -> String {
    match control {
        Control::Pos(bit) => net(bit),
        Control::Neg(bit) => format!("~{}", net(bit)),
    }
}

/// The active edge; a constant has none.
fn edge(control: Control) -> Option<String> {
    match control {
        Control::Pos(bit) => (!bit.is_const()).then(|| format!("posedge {}", net(bit))),
        Control::Neg(bit) => (!bit.is_const()).then(|| format!("negedge {}", net(bit))),
    }
}

/// What a register takes at an edge of its clock.
fn stored(c: &Controls, name: &str, reset: &str, data: &str) -> String {
    let (enable, on_reset) = (level(c.enable), level(c.reset));
    if c.reset_over_enable {
        format!("if ({on_reset}) {name} <= {reset}; else if ({enable}) {name} <= {data};")
    } else {
        format!("if ({enable}) begin if ({on_reset}) {name} <= {reset}; else {name} <= {data}; end")
    }
}

/// A register with the controls of a flip-flop.
fn register(out: &mut Vec<String>, name: &str, c: &Controls, [clear, reset, init]: [&[Trit]; 3], data: &str) {
    let always_clear = c.clear == Control::ONE;
    out.push(format!("reg [{}:0] {name};", init.len() - 1));
    out.push(format!("initial {name} = {};", constant(if always_clear { clear } else { init })));
    let Some(clock) = edge(c.clock).filter(|_| !always_clear) else { return };
    let stored = stored(c, name, &constant(reset), data);
    match edge(c.clear) {
        None => out.push(format!("always @({clock}) if (`LIVE) {stored}")),
        Some(clearing) => {
            let clear = constant(clear);
            out.push(format!("always @({clock} or {clearing}) if (`LIVE) if ({}) {name} <= {clear}; else {stored}", level(c.clear)));
        }
    }
}

fn shift(operator: &str, stride: u32, select: &[Net], moved: &[Net]) -> String {
    if select.is_empty() { value(moved) } else { format!("{} {operator} ({{32'd0, {}}} * 32'd{stride})", value(moved), value(select)) }
}

fn equal(a: &[Net], b: &[Net]) -> String {
    if a.is_empty() { "1'b1".into() } else { format!("{} == {}", value(a), value(b)) }
}

/// An entry of the log. A void has no driver of its own: a later replacement or a memory drives its nets.
pub fn cell(out: &mut Vec<String>, entry: &Entry) {
    if let Cell::Replace { from, to } = &entry.cell {
        if !from.is_empty() {
            out.push(format!("assign {} = {};", value(from), value(to)));
        }
        return;
    }
    if entry.made.is_empty() {
        return;
    }
    out.push(format!("wire {};", entry.made.iter().map(|&bit| net(bit)).collect::<Vec<_>>().join(", ")));
    let driven = match &entry.cell {
        Cell::Void | Cell::Replace { .. } => return,
        Cell::Not(a) => format!("~{}", value(a)),
        Cell::And(a, b) => format!("{} & {}", value(a), value(b)),
        Cell::Or(a, b) => format!("{} | {}", value(a), value(b)),
        Cell::Mux { select, then, other } => format!("{} ? {} : {}", net(*select), value(then), value(other)),
        Cell::Eq(a, b) => equal(a, b),
        Cell::Shl { stride, select, value: moved } => shift("<<", *stride, select, moved),
        Cell::Ushr { stride, select, value: moved } => shift(">>", *stride, select, moved),
        Cell::FlipFlop { data, flip_flop: FlipFlop { controls, clear_value, reset_value, init_value } } => {
            let name = format!("f{}", entry.made[0].0);
            register(out, &name, controls, [clear_value, reset_value, init_value], &value(data));
            name
        }
    };
    out.push(format!("assign {} = {driven};", value(&entry.made)));
}

/// A memory, whose nets all have wires, and the nets that it drives. With `known` there is also, for two values, a wire for each bit that is defined.
pub struct Block<'a> {
    pub name: &'a str,
    pub file: &'a str,
    pub memory: &'a Memory,
    pub output: &'a [Net],
    pub known: bool,
}

impl Block<'_> {
    pub fn write(&self, out: &mut Vec<String>) {
        let (m, name) = (self.memory, self.name);
        if m.depth > 0 {
            out.push(format!("reg [{}:0] {name} [0:{}];", m.width - 1, m.depth - 1));
            out.push(format!("initial $readmemb(\"{}\", {name});", self.file));
        }
        (0..m.write_ports.len()).for_each(|j| self.write_nets(out, j));
        if m.depth > 0 {
            (0..m.write_ports.len()).for_each(|j| self.write_port(out, j));
        }
        let mut rest = self.output;
        for (i, port) in m.read_ports.iter().enumerate() {
            let (driven, others) = rest.split_at(port.data_len);
            self.read_port(out, i, port, driven);
            rest = others;
        }
    }

    /// How many rows a port of so many bits reaches at once.
    fn rows(&self, data_len: usize) -> u32 {
        1 << wide_log2(self.memory.width, data_len).expect("a port of the memory")
    }

    /// The first row of an address.
    fn first_row(&self, addr: &[Net], data_len: usize) -> String {
        if addr.is_empty() { "32'd0".into() } else { format!("{} * 32'd{}", value(addr), self.rows(data_len)) }
    }

    fn write_nets(&self, out: &mut Vec<String>, j: usize) {
        let (port, p) = (&self.memory.write_ports[j], format!("{}_w{j}", self.name));
        let top = port.data.len() - 1;
        out.push(format!("wire [31:0] {p}_row = {};", self.first_row(&port.addr, port.data.len())));
        out.push(format!("wire [{top}:0] {p}_mask = {};", value(&port.mask)));
        out.push(format!("wire [{top}:0] {p}_data;"));
        for s in 0..self.rows(port.data.len()) {
            let part = self.part(s);
            let given = format!("{p}_given{s}");
            out.push(format!("wire [{}:0] {given} = {};", self.memory.width - 1, value(&port.data[self.bits(s)])));
            // What two ports write at once is not defined.
            let others = (0..self.memory.write_ports.len()).filter(|&other| other != j && self.memory.write_ports[other].clock == port.clock);
            let twice: Vec<String> = others.flat_map(|other| self.hits(other, &format!("{p}_row + {s}"))).map(|(hit, _)| hit).collect();
            let data = if twice.is_empty() { given } else { laid_over(&given, &twice.join(" | "), &self.undefined()) };
            out.push(format!("assign {p}_data[{part}] = {data};"));
        }
    }

    fn bits(&self, s: u32) -> std::ops::Range<usize> {
        let width = self.memory.width;
        (s * width) as usize..((s + 1) * width) as usize
    }

    fn part(&self, s: u32) -> String {
        format!("{} +: {}", s * self.memory.width, self.memory.width)
    }

    fn undefined(&self) -> String {
        format!("{{{}{{1'bx}}}}", self.memory.width)
    }

    /// For each row that a write port reaches: the bits of a row `row` that it writes, and the data.
    fn hits(&self, j: usize, row: &str) -> Vec<(String, String)> {
        let p = format!("{}_w{j}", self.name);
        let hit = |t: u32| format!("({{{}{{{p}_row + {t} == {row}}}}} & {p}_mask[{}])", self.memory.width, self.part(t));
        let all = 0..self.rows(self.memory.write_ports[j].data.len());
        all.map(|t| (hit(t), format!("{p}_data[{}]", self.part(t)))).collect()
    }

    fn write_port(&self, out: &mut Vec<String>, j: usize) {
        let (m, name, p) = (self.memory, self.name, format!("{}_w{j}", self.name));
        let (rows, width, depth) = (self.rows(m.write_ports[j].data.len()), m.width, m.depth);
        let Some(clock) = edge(m.write_ports[j].clock) else { return };
        let each = format!("for ({p}_s = 0; {p}_s < {rows}; {p}_s = {p}_s + 1) for ({p}_b = 0; {p}_b < {width}; {p}_b = {p}_b + 1)");
        let at = format!("{p}_s * {width} + {p}_b");
        out.push(format!("integer {p}_s, {p}_b, {p}_r;"));
        out.push(format!("always @({clock}) if (`LIVE) begin"));
        out.push(format!("  {each}"));
        out.push(format!("    if (`MAYBE({p}_mask[{at}]) && {p}_row + {p}_s < {depth})"));
        out.push(format!("      {name}[{p}_row + {p}_s][{p}_b] <= {p}_mask[{at}] ? {p}_data[{at}] : {name}[{p}_row + {p}_s][{p}_b];"));
        // An address that is not known may be any.
        out.push("`ifndef YOSYS".into());
        out.push(format!("  if (^{p}_row === 1'bx) for ({p}_r = 0; {p}_r < {depth}; {p}_r = {p}_r + 1) {each}"));
        out.push(format!("    if (`MAYBE({p}_mask[{at}])) {name}[{p}_r][{p}_b] <= 1'bx;"));
        out.push("`endif".into());
        out.push("end".into());
    }

    fn read_port(&self, out: &mut Vec<String>, i: usize, port: &ReadPort, driven: &[Net]) {
        let p = format!("{}_r{i}", self.name);
        out.push(format!("wire [31:0] {p}_row = {};", self.first_row(&port.addr, port.data_len)));
        out.push(format!("wire [{}:0] {p}_next;", port.data_len - 1));
        if self.known {
            out.push(format!("wire [{}:0] {p}_next_known;", port.data_len - 1));
        }
        (0..self.rows(port.data_len)).for_each(|s| self.read_row(out, &p, port, s));
        let mut shown = format!("{p}_next");
        if let Some(FlipFlop { controls, clear_value, reset_value, init_value }) = &port.flip_flop {
            register(out, &format!("{p}_q"), controls, [clear_value, reset_value, init_value], &shown);
            if self.known {
                let trits = [known(clear_value), known(reset_value), known(init_value)];
                register(out, &format!("{p}_q_known"), controls, [&trits[0], &trits[1], &trits[2]], &format!("{p}_next_known"));
            }
            shown = format!("{p}_q");
        }
        out.push(format!("assign {} = {shown};", value(driven)));
        if self.known {
            out.push(format!("wire [{}:0] {p}_known = {shown}_known;", port.data_len - 1));
        }
    }

    /// One of the rows that a read port reads: what the memory has, and over it what ports of the same clock write.
    fn read_row(&self, out: &mut Vec<String>, p: &str, port: &ReadPort, s: u32) {
        let (m, top, x) = (self.memory, self.memory.width - 1, self.undefined());
        let row = format!("{p}_row + {s}");
        let inside = format!("{row} < {}", m.depth);
        let mut bits = format!("{p}_s{s}");
        let mut lost = vec![];
        out.push(format!("wire [{top}:0] {bits} = {};", if m.depth == 0 { x.clone() } else { format!("{}[{row}]", self.name) }));
        for (j, write) in m.write_ports.iter().enumerate() {
            let relation = port.relations.get(j).copied().unwrap_or_default();
            let clocked = port.flip_flop.as_ref().is_some_and(|f| f.controls.clock == write.clock);
            if !clocked || relation == Relation::ReadBeforeWrite {
                continue;
            }
            for (t, (hit, data)) in self.hits(j, &row).into_iter().enumerate() {
                let next = format!("{bits}_{j}_{t}");
                let over = if relation == Relation::Transparent { &data } else { &x };
                out.push(format!("wire [{top}:0] {next} = {};", laid_over(&bits, &hit, over)));
                bits = next;
                lost.extend((relation == Relation::Undefined).then_some(hit));
            }
        }
        out.push(format!("assign {p}_next[{}] = {inside} ? {bits} : {x};", self.part(s)));
        if self.known {
            lost.push(format!("{{{}{{~({inside})}}}}", m.width));
            out.push(format!("assign {p}_next_known[{}] = ~({});", self.part(s), lost.join(" | ")));
        }
    }
}

/// Some bits, and others where `at` is set.
fn laid_over(bits: &str, at: &str, others: &str) -> String {
    format!("({bits} & ~({at})) | ({others} & ({at}))")
}
