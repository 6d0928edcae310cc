//! The macros of a case's test bench, and of what is proved of it.

use tablegoose::{Control, Net};

use crate::cases::{CLOCKS, Case, Step};

pub const BENCH: &str = include_str!("../../../verilog/bench.v");
pub const MITER: &str = include_str!("../../../verilog/miter.v");

/// Some of the inputs, as a number.
fn mask(case: &Case, nets: impl Iterator<Item = Net>) -> String {
    let set = nets.filter(|net| !net.is_const()).fold(0u128, |set, net| set | 1 << (net.0 - 2));
    format!("{}'h{set:x}", case.inputs)
}

fn net(control: &Control) -> Net {
    match *control {
        Control::Pos(net) | Control::Neg(net) => net,
    }
}

pub fn macros(case: &Case, outputs: usize, rows: usize, seed: u64) -> String {
    let inverted = case.rare.iter().filter(|control| matches!(control, Control::Neg(_)));
    let writes = case.memory.write_ports.iter().flat_map(|port| port.mask.iter().copied());
    // A write that waits half a cycle is in the memory later.
    let with_rows = !case.steps.contains(&Step::Emulate);
    let defines = [
        ("INPUTS", case.inputs.to_string()),
        ("OUTPUTS", outputs.to_string()),
        ("ROWS", rows.to_string()),
        ("CLOCKS", mask(case, CLOCKS.into_iter())),
        ("RARE", mask(case, case.rare.iter().map(net))),
        ("INVERTED", mask(case, inverted.map(net))),
        ("WRITES", mask(case, writes)),
        ("WITH_ROWS", u32::from(with_rows).to_string()),
        ("SEED", (seed & 0x7fff_ffff).to_string()),
    ];
    defines.iter().map(|(name, value)| format!("`define {name} {value}\n")).collect()
}
