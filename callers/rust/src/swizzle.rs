//! The swizzle: a memory split by a plan into memories that share their ports, and patches of their images.
//!
//! ```
//! use tablegoose::{Control, Log, Memory, Net, Swizzle, WritePort, trits};
//!
//! // Three rows of two bits with a write port, split over memories of two rows.
//! let port = WritePort { addr: Net(10).run(2), data: Net(20).run(2), mask: vec![Net(30); 2], clock: Control::Pos(Net(5)) };
//! let memory = Memory { depth: 3, width: 2, init_value: trits("10X100")?, write_ports: vec![port], read_ports: vec![] };
//! let plan = Swizzle {
//!     data_swizzle: vec![Some(0), Some(1)],
//!     write_wide_log2: vec![0],
//!     hard_addr_bits: 1,
//!     data_width_unit: 2,
//!     ..Swizzle::default()
//! };
//! let mut log = Log::new(1_000, Net(100));
//! let mut split = memory.swizzle(&mut log, &[], &plan)?;
//! let depths: Vec<u32> = split.memories().map(|memory| memory.depth()).collect();
//! assert_eq!(depths, [2, 1]);
//! // All memories have one address: the low bit. Each has a mask of its own, which the log's cells make.
//! let ports: Vec<WritePort> = split.memories().flat_map(|memory| memory.write_ports()).collect();
//! assert!(ports.iter().all(|port| port.addr == [Net(10)] && port.data == Net(20).run(2)));
//! assert_ne!(ports[0].mask, ports[1].mask);
//! split.patch(2, &trits("X1")?)?;
//! assert_eq!(split.memory(1).map(|memory| memory.image()), Some(trits("X1")?));
//! assert_eq!(split.record()?.list(), "memories 2 trits 6\n0 2 3 2 load\n1 1 1 1 load\n");
//! # Ok::<(), tablegoose::Refusal>(())
//! ```

use crate::ffi::{self, Part};
use crate::image::{Image, Laid, Patch, calls_of};
use crate::log::{Controls, FlipFlop, Log};
use crate::memory::{Lowered, Memory, ReadPort, Swizzle, WritePort, entry_words, relations_of};
use crate::net::{Control, Net, Trit, nets_of, numbers, trits_of};
use crate::record::{Record, Sizes};
use crate::refusal::Refusal;
use crate::rooms::SwizzleRooms;

/// What a swizzle gives: memories that share their ports, and their image, of which patches exchange rows.
#[derive(Clone, Debug, PartialEq, Eq)]
pub struct Swizzled {
    memory: ffi::WideMemory,
    nets: Vec<u32>,
    trits: Vec<u8>,
    image: Image,
    laid: Laid,
    sizes: Sizes,
}

/// What a call takes, and rooms that are as large as it needs.
struct Given {
    memory: Lowered,
    output: Vec<u32>,
    entries: Vec<u32>,
    image: Vec<u8>,
    nets: Vec<u32>,
    trits: Vec<u8>,
    scratch: Vec<u32>,
}

impl Given {
    /// The rooms' contents after an accepted call.
    fn swizzled(mut self, answer: ffi::Swizzled) -> Swizzled {
        self.nets.truncate(answer.nets_used);
        self.trits.truncate(answer.trits_used);
        let laid = Laid::of(answer.laid);
        let image = Image::laid_out(&laid, self.image);
        Swizzled { memory: answer.memory, nets: self.nets, trits: self.trits, image, laid, sizes: answer.sizes }
    }
}

impl Memory {
    fn given(&self, output: &[Net], plan: &Swizzle) -> Given {
        let (memory, entries) = (self.lowered(), entry_words(&plan.data_swizzle));
        let rooms = SwizzleRooms::of(&memory.memory, plan.lowered(), &entries, &plan.write_wide_log2, &plan.read_wide_log2);
        Given {
            memory,
            output: numbers(output),
            entries,
            image: vec![Trit::X.code(); rooms.image],
            nets: vec![0; rooms.nets],
            trits: vec![Trit::X.code(); rooms.trits],
            scratch: vec![0; rooms.scratch],
        }
    }

    /// The memory split by a plan; `output` has a net for each output bit, and an entry of the log replaces each. The cells that the memories need stand in
    /// the log. Width 0 gives no memories, depth 0 neither. Numbers 1 to 4, 7 to 10, 14, 20 (the log) and 21.
    pub fn swizzle(&self, log: &mut Log, output: &[Net], plan: &Swizzle) -> Result<Swizzled, Refusal> {
        let mut g = self.given(output, plan);
        let (l, s, entries) = (&g.memory, plan.lowered(), &g.entries);
        let (writes, reads) = (&plan.write_wide_log2, &plan.read_wide_log2);
        let answer = log.swizzled(|words, st| {
            let (image, nets, trits, scratch) = (&mut g.image, &mut g.nets, &mut g.trits, &mut g.scratch);
            ffi::swizzle(words, st, image, nets, trits, scratch, l.memory, &l.nets, &l.trits, &g.output, s, entries, writes, reads)
        })?;
        Ok(g.swizzled(answer))
    }

    /// The same, and a list of patches of its image: the number of each patch, 0 where it was accepted.
    pub fn swizzle_and_patch(&self, log: &mut Log, output: &[Net], plan: &Swizzle, patches: &[Patch]) -> Result<(Swizzled, Vec<u32>), Refusal> {
        let mut g = self.given(output, plan);
        let (l, s, entries) = (&g.memory, plan.lowered(), &g.entries);
        let (writes, reads) = (&plan.write_wide_log2, &plan.read_wide_log2);
        let ((calls, rows), mut each) = (calls_of(patches), vec![0; patches.len()]);
        let answer = log.swizzled(|words, st| {
            let (image, nets, trits, scratch) = (&mut g.image, &mut g.nets, &mut g.trits, &mut g.scratch);
            let (m, given, codes, output) = (l.memory, &l.nets, &l.trits, &g.output);
            let both = ffi::swizzle_and_patch(
                words, st, image, nets, trits, scratch, &mut each, m, given, codes, output, s, entries, writes, reads, &calls, &rows,
            );
            both.swizzled
        })?;
        Ok((g.swizzled(answer), each))
    }
}

impl Swizzled {
    /// How many memories there are.
    pub fn len(&self) -> usize {
        self.memory.mems as usize
    }

    /// Whether there is none: the given memory had no rows, or no bits.
    pub fn is_empty(&self) -> bool {
        self.len() == 0
    }

    /// A memory by its number.
    pub fn memory(&self, n: usize) -> Option<SwizzledMemory<'_>> {
        (n < self.len()).then_some(SwizzledMemory { of: self, n })
    }

    /// The memories in order.
    pub fn memories(&self) -> impl ExactSizeIterator<Item = SwizzledMemory<'_>> {
        (0..self.len()).map(|n| SwizzledMemory { of: self, n })
    }

    /// The trits of all memories, as patches left them.
    pub fn image(&self) -> &Image {
        &self.image
    }

    /// The state that patches go by.
    pub fn laid(&self) -> &Laid {
        &self.laid
    }

    /// The sizes of the image's record.
    pub fn sizes(&self) -> Sizes {
        self.sizes
    }

    /// Exchanges one row of the given memory in the image. Numbers 4 and 15.
    pub fn patch(&mut self, row: u32, trits: &[Trit]) -> Result<(), Refusal> {
        self.laid.patch(&mut self.image, row, trits)
    }

    /// Exchanges rows in order: the number of each patch, 0 where it was accepted.
    pub fn patch_each(&mut self, patches: &[Patch]) -> Result<Vec<u32>, Refusal> {
        self.laid.patch_all(&mut self.image, patches)
    }

    /// A row of the given memory as it stands in the image. Number 15 where there is no such row.
    pub fn row(&self, row: u32) -> Result<Vec<Trit>, Refusal> {
        self.laid.read_row(&self.image, row)
    }

    /// The image's record.
    pub fn record(&self) -> Result<Record, Refusal> {
        Record::of_codes(self.sizes, self.image.codes())
    }

    fn nets(&self, part: Part) -> Vec<Net> {
        nets_of(&self.nets[part.start..part.start + part.size])
    }

    fn trits(&self, part: Part) -> Vec<Trit> {
        trits_of(&self.trits[part.start..part.start + part.size])
    }
}

/// One of the memories that a swizzle gives.
#[derive(Clone, Copy, Debug)]
pub struct SwizzledMemory<'a> {
    of: &'a Swizzled,
    n: usize,
}

impl<'a> SwizzledMemory<'a> {
    /// Its rows.
    pub fn depth(&self) -> u32 {
        ffi::swizzled_depth(self.of.memory, self.n)
    }

    /// Bits of a row: the plan's unit.
    pub fn width(&self) -> u32 {
        self.of.memory.unit
    }

    /// Its trits of the image, as patches left them: row 0 and bit 0 first.
    pub fn image(&self) -> Vec<Trit> {
        let part = ffi::swizzled_image(self.of.memory, self.n);
        trits_of(&self.of.image.codes()[part.start..part.start + part.size])
    }

    /// Its write ports: all memories have the same addresses and clocks.
    pub fn write_ports(&self) -> impl ExactSizeIterator<Item = WritePort> + use<'a> {
        let (of, n, g) = (self.of, self.n, self.of.memory);
        (0..g.write_count as usize).map(move |j| WritePort {
            addr: of.nets(ffi::swizzled_write_addr(g, n, j)),
            data: of.nets(ffi::swizzled_write_data(g, n, j)),
            mask: of.nets(ffi::swizzled_write_mask(g, n, j)),
            clock: Control::lifted(g.write_ports[j].clock),
        })
    }

    /// Its read ports: all memories have the same addresses, controls and relations.
    pub fn read_ports(&self) -> impl ExactSizeIterator<Item = ReadPort> + use<'a> {
        let (of, n, g) = (self.of, self.n, self.of.memory);
        (0..g.read_count as usize).map(move |i| {
            let p = &g.read_ports[i];
            ReadPort {
                addr: of.nets(ffi::swizzled_read_addr(g, n, i)),
                data_len: (g.unit as usize) << p.wide,
                flip_flop: (p.clocked == 1).then(|| of.flip_flop(n, i)),
                relations: if p.clocked == 1 { relations_of(&p.relations[..p.relations_len as usize]) } else { vec![] },
            }
        })
    }

    /// A net for each of its output bits, read port after read port.
    pub fn outputs(&self) -> Vec<Net> {
        let g = self.of.memory;
        let bits = |i: usize| (0..(g.unit as usize) << g.read_ports[i].wide).map(move |bit| (i, bit));
        let ports = (0..g.read_count as usize).flat_map(bits);
        ports.map(|(i, bit)| Net(ffi::swizzled_output(g, self.n, i, bit))).collect()
    }

    /// The memory by itself, with its part of the image as its initial trits.
    pub fn to_memory(&self) -> Memory {
        Memory {
            depth: self.depth(),
            width: self.width(),
            init_value: self.image(),
            write_ports: self.write_ports().collect(),
            read_ports: self.read_ports().collect(),
        }
    }
}

impl From<SwizzledMemory<'_>> for Memory {
    fn from(memory: SwizzledMemory) -> Memory {
        memory.to_memory()
    }
}

impl Swizzled {
    fn flip_flop(&self, n: usize, i: usize) -> FlipFlop {
        let g = self.memory;
        let ffi::WideReadPort { clock, clear, reset, enable, reset_over_enable, .. } = g.read_ports[i];
        FlipFlop {
            controls: Controls::lifted(ffi::Controls { clock, clear, reset, enable, reset_over_enable }),
            clear_value: self.trits(ffi::swizzled_clear(g, n, i)),
            reset_value: self.trits(ffi::swizzled_reset(g, n, i)),
            init_value: self.trits(ffi::swizzled_init(g, n, i)),
        }
    }
}
