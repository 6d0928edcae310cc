//! Writes memories and what a swizzle or a fallback made of them as Verilog, beside each other: `verilog FOLDER SMALL TINY SEED`. Each case has a folder with
//! the original memory, the log's cells with the resulting memories, a test bench, and one `$readmemb` file for each memory. Its folder `wrong` has two
//! memories' images exchanged, or the design of a fallback with its rows in reverse order. `callers/verilog/run` simulates and proves them.

mod bench;
mod cases;
mod emit;
mod random;

use std::collections::BTreeMap;
use std::error::Error;
use std::fs;
use std::path::Path;

use tablegoose::{Cell, Memory, Net, ReadPort, Relation, Swizzle, Trit, wide_log2};

use cases::{Answer, Case, Size, Step, Way};

/// The head of a module, with wires for the inputs and the outputs.
fn head(case: &Case, name: &str, known: bool) -> Vec<String> {
    let (outputs, rows) = (case.outputs(), row_bits(case));
    let mut out = vec![format!("module {name}("), format!("  input [{}:0] i,", case.inputs - 1), format!("  output [{}:0] o,", outputs.len() - 1)];
    if known {
        out.extend(["`ifdef YOSYS".into(), format!("  output [{}:0] known,", outputs.len() - 1), "`endif".into()]);
    }
    out.push(format!("  output [{}:0] rows);", rows - 1));
    out.extend((0..case.inputs).map(|input| format!("wire n{} = i[{input}];", 2 + input)));
    out.extend(outputs.iter().map(|&output| format!("wire {};", emit::net(output))));
    out.push(format!("assign o = {};", emit::value(&outputs)));
    out
}

/// The bits of all rows; without rows there is one, 0.
fn row_bits(case: &Case) -> usize {
    case.memory.init_value.len().max(1)
}

/// The memory as it is given.
fn original(case: &Case) -> String {
    let (m, outputs) = (&case.memory, case.outputs());
    let mut out = head(case, "original", true);
    emit::Block { name: "m", file: "original.mem", memory: m, output: &outputs, known: true }.write(&mut out);
    let known: Vec<String> = (0..m.read_ports.len()).rev().map(|i| format!("m_r{i}_known")).collect();
    out.extend(["`ifdef YOSYS".into(), format!("assign known = {{{}}};", known.join(", ")), "`endif".into()]);
    let rows: Vec<String> = (0..m.depth).rev().map(|row| format!("m[{row}]")).collect();
    out.push(if rows.is_empty() { "assign rows = 1'b0;".into() } else { format!("assign rows = {{{}}};", rows.join(", ")) });
    out.push("endmodule\n".into());
    out.join("\n")
}

/// The log's cells and the memories that a swizzle gave; `rows` are the places of the original's bits.
fn split(case: &Case, answer: &Answer) -> Result<String, Box<dyn Error>> {
    let mut out = head(case, "split", false);
    answer.log.entries().for_each(|entry| emit::cell(&mut out, &entry));
    for (n, (memory, output)) in answer.memories().iter().enumerate() {
        let (name, file) = (format!("m{n}"), format!("memory_{n}.mem"));
        emit::Block { name: &name, file: &file, memory, output, known: false }.write(&mut out);
    }
    match case.way {
        _ if case.memory.depth == 0 => out.push("assign rows = 1'b0;".into()),
        Way::Swizzle => rows_of_memories(case, &mut out)?,
        Way::Fallback => out.push(format!("assign rows = {};", emit::value(&rows_of_registers(case, answer)))),
    }
    out.push("endmodule\n".into());
    Ok(out.join("\n"))
}

fn rows_of_memories(case: &Case, out: &mut Vec<String>) -> Result<(), Box<dyn Error>> {
    let layout = case.layout();
    let entry_of = |bit: u32| case.plan.data_swizzle.iter().position(|&entry| entry == Some(bit)).expect("each bit has an entry");
    for row in 0..case.memory.depth {
        for bit in 0..case.memory.width {
            let place = layout.place_of(row, entry_of(bit))?;
            out.push(format!("assign rows[{}] = m{}[{}][{}];", row * case.memory.width + bit, place.memory, place.row, place.bit));
        }
    }
    Ok(())
}

/// A fallback's last flip-flops are its rows in order; without write ports a row is its trits.
fn rows_of_registers(case: &Case, answer: &Answer) -> Vec<Net> {
    let m = &case.memory;
    if m.write_ports.is_empty() {
        return m.init_value.iter().map(|trit| [Net::ZERO, Net::ONE, Net::X][trit.code() as usize]).collect();
    }
    let flip_flops: Vec<Vec<Net>> =
        answer.log.entries().filter(|entry| matches!(entry.cell, Cell::FlipFlop { .. })).map(|entry| entry.made).collect();
    flip_flops[flip_flops.len() - m.depth as usize..].concat()
}

/// A `$readmemb` file: a line for each row.
fn image(trits: &[Trit], width: u32) -> String {
    trits.chunks(width as usize).map(|row| emit::word(row) + "\n").collect()
}

/// Two memories of one depth with different known trits, to be exchanged.
fn unlike(memories: &[Memory]) -> Option<(usize, usize)> {
    let known = |a: Trit, b: Trit| a != Trit::X && b != Trit::X && a != b;
    let differ = |a: &Memory, b: &Memory| a.depth == b.depth && a.init_value.iter().zip(&b.init_value).any(|(&a, &b)| known(a, b));
    let pairs = (0..memories.len()).flat_map(|a| (0..a).map(move |b| (a, b)));
    pairs.into_iter().find(|&(a, b)| differ(&memories[a], &memories[b]))
}

/// The images, and those with two exchanged where there are two that differ; of a fallback the design with its rows in reverse order.
fn images(folder: &Path, case: &Case, answer: &Answer) -> Result<bool, Box<dyn Error>> {
    let memories: Vec<Memory> = answer.memories().into_iter().map(|(memory, _)| memory).collect();
    let write = |folder: &Path, order: &dyn Fn(usize) -> usize| -> std::io::Result<()> {
        fs::create_dir_all(folder)?;
        fs::write(folder.join("original.mem"), image(&case.memory.init_value, case.memory.width))?;
        for n in 0..memories.len() {
            let from = &memories[order(n)];
            fs::write(folder.join(format!("memory_{n}.mem")), image(&from.init_value, from.width))?;
        }
        Ok(())
    };
    write(folder, &|n| n)?;
    if case.way == Way::Fallback {
        let Some((other, answer)) = case.reversed() else { return Ok(false) };
        write(&folder.join("wrong"), &|n| n)?;
        fs::write(folder.join("wrong/design.v"), [emit::MACROS, &original(case), &split(&other, &answer)?].concat())?;
        return Ok(true);
    }
    let Some((a, b)) = unlike(&memories) else { return Ok(false) };
    let exchanged = |n: usize| match n {
        _ if n == a => b,
        _ if n == b => a,
        _ => n,
    };
    write(&folder.join("wrong"), &exchanged)?;
    Ok(true)
}

/// How many of each kind the cases have.
#[derive(Default)]
struct Counts(BTreeMap<&'static str, usize>);

impl Counts {
    fn add(&mut self, what: &'static str, count: usize) {
        *self.0.entry(what).or_default() += count;
    }

    fn case(&mut self, case: &Case, answer: &Answer) {
        let (m, plan) = (&case.memory, &case.plan);
        let relation = |wanted: Relation| m.read_ports.iter().flat_map(|port| &port.relations).filter(|&&relation| relation == wanted).count();
        let control = |wanted: fn(&tablegoose::Controls) -> bool| {
            m.read_ports.iter().filter(|port| port.flip_flop.as_ref().is_some_and(|f| wanted(&f.controls))).count()
        };
        let clocked = |port: &&ReadPort| port.flip_flop.is_some();
        self.add("memories given", 1);
        self.add("memories made", answer.memories().len());
        self.add("fallbacks", usize::from(case.way == Way::Fallback));
        self.add("without rows", usize::from(m.depth == 0));
        if case.way == Way::Swizzle {
            self.add("soft bits", usize::from(plan.soft_addr_bits_mask != 0));
            self.add("a soft bit above a chunk bit that is not", usize::from(soft_above(plan, m.depth)));
            self.add("partial chunk", usize::from(partial_depth(case) != 0));
        }
        self.add("write ports", m.write_ports.len());
        self.add("read ports clocked", m.read_ports.iter().filter(clocked).count());
        self.add("read ports unclocked", m.read_ports.iter().filter(|port| !clocked(port)).count());
        self.add("with enable", control(|c| c.enable != tablegoose::Control::ONE));
        self.add("with reset", control(|c| c.reset != tablegoose::Control::ZERO));
        self.add("with clear", control(|c| c.clear != tablegoose::Control::ZERO));
        self.add("transparent", relation(Relation::Transparent));
        self.add("read before write", relation(Relation::ReadBeforeWrite));
        self.ports(m);
        self.cells(answer);
        case.steps.iter().for_each(|step| self.add(step_name(step), 1));
    }

    fn ports(&mut self, m: &Memory) {
        let lengths = m.write_ports.iter().map(|port| port.data.len()).chain(m.read_ports.iter().map(|port| port.data_len));
        for k in lengths.filter_map(|length| wide_log2(m.width, length).ok()) {
            self.add(["k 0", "k 1", "k 2"][k as usize], 1);
        }
    }

    fn cells(&mut self, answer: &Answer) {
        for entry in answer.log.entries() {
            let name = match entry.cell {
                Cell::Void => "cell void",
                Cell::Not(_) => "cell not",
                Cell::And(..) => "cell and",
                Cell::Or(..) => "cell or",
                Cell::Mux { .. } => "cell mux",
                Cell::Eq(..) => "cell eq",
                Cell::Shl { .. } => "cell shl",
                Cell::Ushr { .. } => "cell ushr",
                Cell::FlipFlop { .. } => "cell flip-flop",
                Cell::Replace { .. } => "cell replace",
            };
            self.add(name, 1);
        }
    }
}

fn step_name(step: &Step) -> &'static str {
    match step {
        Step::Remap(_) => "step reset over enable",
        Step::UnmapDff(_) => "step unmap flip-flop",
        Step::UnmapReset(_, false) => "step unmap reset",
        Step::UnmapReset(_, true) => "step unmap reset and transparency",
        Step::Emulate => "step emulate read before write",
    }
}

fn partial_depth(case: &Case) -> u32 {
    (case.memory.depth >> case.plan.soft_addr_bits_mask.count_ones()) % (1 << case.plan.hard_addr_bits)
}

/// Whether some soft bit stands above a bit that selects among memories and is not soft.
fn soft_above(plan: &Swizzle, depth: u32) -> bool {
    let soft = |bit: &u32| (plan.soft_addr_bits_mask >> bit) & 1 == 1;
    let used = 0..u32::BITS - depth.saturating_sub(1).leading_zeros();
    let high = used.filter(|bit| !soft(bit)).nth(plan.hard_addr_bits as usize);
    high.is_some_and(|high| plan.soft_addr_bits_mask >> high != 0)
}

fn summary(case: &Case, answer: &Answer, wrong: bool) -> String {
    let (m, plan) = (&case.memory, &case.plan);
    let (writes, reads, made) = (m.write_ports.len(), m.read_ports.len(), answer.memories().len());
    let (mask, hard, unit, partial) = (plan.soft_addr_bits_mask, plan.hard_addr_bits, plan.data_width_unit, partial_depth(case));
    let exchanged = if wrong { "" } else { ", nothing to exchange" };
    let way = match case.way {
        Way::Swizzle => format!("soft {mask:b} hard {hard} unit {unit}, partial {partial}, memories {made}"),
        Way::Fallback => "a fallback".into(),
    };
    format!("depth {} width {} writes {writes} reads {reads}, {way}, steps {:?}{exchanged}\n", m.depth, m.width, case.steps)
}

fn write_case(folder: &Path, seed: u64, size: Size, way: Way, counts: &mut Counts) -> Result<(), Box<dyn Error>> {
    let (case, answer) = Case::of_seed(seed, size, way);
    assert!(case.inputs <= 128 && case.outputs().first() == Some(&Net(2 + case.inputs)), "too many inputs");
    let wrong = images(folder, &case, &answer)?;
    let (outputs, rows) = (case.outputs().len(), row_bits(&case));
    let macros = bench::macros(&case, outputs, rows, seed);
    fs::write(folder.join("design.v"), [emit::MACROS, &original(&case), &split(&case, &answer)?].concat())?;
    fs::write(folder.join("bench.v"), [&macros, bench::BENCH].concat())?;
    fs::write(folder.join("miter.v"), [&macros, bench::MITER].concat())?;
    fs::write(folder.join("about"), summary(&case, &answer, wrong))?;
    counts.case(&case, &answer);
    Ok(())
}

fn main() -> Result<(), Box<dyn Error>> {
    let arguments: Vec<String> = std::env::args().skip(1).collect();
    let [folder, small, tiny, seed] = &arguments[..] else { return Err("verilog FOLDER SMALL TINY SEED".into()) };
    let (small, tiny, seed): (u64, u64, u64) = (small.parse()?, tiny.parse()?, seed.parse()?);
    let mut counts = Counts::default();
    for (size, name, count) in [(Size::Small, "small", small), (Size::Tiny, "tiny", tiny)] {
        for n in 0..count {
            write_case(&Path::new(folder).join(format!("{name}_{n:02}")), seed + n, size, Way::Swizzle, &mut counts)?;
            write_case(&Path::new(folder).join(format!("{name}_fallback_{n:02}")), seed + n, size, Way::Fallback, &mut counts)?;
        }
    }
    let counts: Vec<String> = counts.0.iter().map(|(what, count)| format!("{what} {count}")).collect();
    println!("{}", counts.join(", "));
    Ok(())
}
