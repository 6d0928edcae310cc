//! The call format of docs/CALLING.md: calls as plain records of words, read from a case and written as one.
//!
//! Nothing here judges a value. A case that is not laid out as its op says is no case (`None`).

use std::fmt;

/// A list of net words.
pub type Value = Vec<u32>;
/// A list of trit codes.
pub type Trits = Vec<u32>;

/// The words of a case that are not read yet.
pub struct Words<'a>(pub &'a [u32]);

impl Words<'_> {
    pub fn word(&mut self) -> Option<u32> {
        let (&first, rest) = self.0.split_first()?;
        self.0 = rest;
        Some(first)
    }
}

/// A piece of a case or an answer.
pub trait Wire: Sized {
    fn read(words: &mut Words) -> Option<Self>;
    fn write(&self, out: &mut Vec<u32>);
}

impl Wire for u32 {
    fn read(words: &mut Words) -> Option<Self> {
        words.word()
    }

    fn write(&self, out: &mut Vec<u32>) {
        out.push(*self);
    }
}

impl Wire for bool {
    fn read(words: &mut Words) -> Option<Self> {
        match words.word()? {
            0 => Some(false),
            1 => Some(true),
            _ => None,
        }
    }

    fn write(&self, out: &mut Vec<u32>) {
        out.push(*self as u32);
    }
}

/// An option is a flag, followed by the thing if the flag is 1.
impl<T: Wire> Wire for Option<T> {
    fn read(words: &mut Words) -> Option<Self> {
        Some(if bool::read(words)? { Some(T::read(words)?) } else { None })
    }

    fn write(&self, out: &mut Vec<u32>) {
        self.is_some().write(out);
        if let Some(thing) = self {
            thing.write(out);
        }
    }
}

/// A number of things, then each.
impl<T: Wire> Wire for Vec<T> {
    fn read(words: &mut Words) -> Option<Self> {
        let length = words.word()? as usize;
        read_many(words, length)
    }

    fn write(&self, out: &mut Vec<u32>) {
        out.push(self.len() as u32);
        write_many(self, out);
    }
}

/// Every thing is a word at least, which bounds the allocation of a false length.
fn read_many<T: Wire>(words: &mut Words, count: usize) -> Option<Vec<T>> {
    if words.0.len() < count {
        return None;
    }
    (0..count).map(|_| T::read(words)).collect()
}

fn write_many<T: Wire>(things: &[T], out: &mut Vec<u32>) {
    things.iter().for_each(|thing| thing.write(out));
}

/// Defines a record whose fields follow each other on the wire.
macro_rules! record {
    ($(#[$doc:meta])* $name:ident { $($field:ident: $kind:ty),* $(,)? }) => {
        $(#[$doc])*
        #[derive(Clone, Debug, PartialEq, Eq)]
        pub struct $name { $(pub $field: $kind),* }

        impl Wire for $name {
            fn read(words: &mut Words) -> Option<Self> {
                Some($name { $($field: <$kind>::read(words)?),* })
            }

            fn write(&self, out: &mut Vec<u32>) {
                $(self.$field.write(out);)*
            }
        }
    };
}

/// A net that may be negated: 0 Pos, 1 Neg.
#[derive(Clone, Copy, PartialEq, Eq)]
pub struct Control {
    pub polarity: u32,
    pub net: u32,
}

impl Wire for Control {
    fn read(words: &mut Words) -> Option<Self> {
        Some(Control { polarity: bool::read(words)? as u32, net: words.word()? })
    }

    fn write(&self, out: &mut Vec<u32>) {
        out.extend([self.polarity, self.net]);
    }
}

/// Short, as ports have many: `Pos 5`, `Neg 5`.
impl fmt::Debug for Control {
    fn fmt(&self, f: &mut fmt::Formatter) -> fmt::Result {
        let sign = ["Pos", "Neg"].get(self.polarity as usize).unwrap_or(&"?");
        write!(f, "{sign} {}", self.net)
    }
}

impl Control {
    pub const ZERO: Control = Control { polarity: 0, net: 0 };
    pub const ONE: Control = Control { polarity: 0, net: 1 };

    pub fn pos(net: u32) -> Control {
        Control { polarity: 0, net }
    }

    pub fn neg(net: u32) -> Control {
        Control { polarity: 1, net }
    }
}

record! {
    #[derive(Copy)]
    Log { room: u32, used: u32, next: u32 }
}

record! {
    Controls { clock: Control, clear: Control, reset: Control, enable: Control, reset_over_enable: bool }
}

record! {
    FlipFlop { data: Value, controls: Controls, clear_value: Trits, reset_value: Trits, init_value: Trits }
}

record! {
    WritePort { addr: Value, data: Value, mask: Value, clock: Control }
}

/// The relation codes of a clocked read port.
pub const UNDEFINED: u32 = 0;
pub const READ_BEFORE_WRITE: u32 = 1;
pub const TRANSPARENT: u32 = 2;

record! {
    ReadFlipFlop {
        controls: Controls, clear_value: Trits, reset_value: Trits, init_value: Trits, relations: Vec<u32>
    }
}

record! {
    ReadPort { addr: Value, data_len: u32, flip_flop: Option<ReadFlipFlop> }
}

#[derive(Clone, Debug, PartialEq, Eq)]
pub struct Memory {
    pub depth: u32,
    pub width: u32,
    pub init: Trits,
    pub write_ports: Vec<WritePort>,
    pub read_ports: Vec<ReadPort>,
}

/// Both numbers of ports stand before the ports.
impl Wire for Memory {
    fn read(words: &mut Words) -> Option<Self> {
        let (depth, width, init) = (words.word()?, words.word()?, Trits::read(words)?);
        let (writes, reads) = (words.word()? as usize, words.word()? as usize);
        let (write_ports, read_ports) = (read_many(words, writes)?, read_many(words, reads)?);
        Some(Memory { depth, width, init, write_ports, read_ports })
    }

    fn write(&self, out: &mut Vec<u32>) {
        out.extend([self.depth, self.width]);
        self.init.write(out);
        out.extend([self.write_ports.len() as u32, self.read_ports.len() as u32]);
        write_many(&self.write_ports, out);
        write_many(&self.read_ports, out);
    }
}

record! {
    /// A `MemorySwizzle`.
    Plan {
        entries: Vec<u32>, soft_mask: u32, write_logs: Vec<u32>, read_logs: Vec<u32>, hard: u32, unit: u32
    }
}

record! {
    Patch { room: u32, row: u32, trits: Trits }
}

record! {
    #[derive(Copy)]
    Sizes { unit: u32, full: u32, full_depth: u32, partial: u32, partial_depth: u32 }
}

record! {
    SwizzleRequest { image_room: u32, log: Log, memory: Memory, output: Value, plan: Plan }
}

record! {
    /// A resulting memory with its output.
    Driven { memory: Memory, output: Value }
}

record! {
    LowerFallback { log: Log, memory: Memory, output: Value }
}

/// A step of a history.
#[derive(Clone, Debug, PartialEq, Eq)]
pub enum Step {
    Swizzle(SwizzleRequest),
    Fallback(LowerFallback),
    Patch(Patch),
}

impl Wire for Step {
    fn read(words: &mut Words) -> Option<Self> {
        match words.word()? {
            1 => SwizzleRequest::read(words).map(Step::Swizzle),
            2 => LowerFallback::read(words).map(Step::Fallback),
            3 => Patch::read(words).map(Step::Patch),
            _ => None,
        }
    }

    fn write(&self, out: &mut Vec<u32>) {
        match self {
            Step::Swizzle(swizzle) => {
                out.push(1);
                swizzle.write(out);
            }
            Step::Fallback(fallback) => {
                out.push(2);
                fallback.write(out);
            }
            Step::Patch(patch) => {
                out.push(3);
                patch.write(out);
            }
        }
    }
}

record! { ConstNot { room: u32, a: Trits } }
record! { ConstPair { room: u32, a: Trits, b: Trits } }
record! { IsUndef { a: Trits } }
record! { ControlInverse { control: Control } }
record! { RemapReset { log: Log, reset: Control, enable: Control, reset_over_enable: bool } }
record! { DedupMux { log: Log, select: Control, then: Value, other: Value } }
record! { DedupDff { log: Log, flip_flop: FlipFlop } }
record! { BitwiseMux { log: Log, select: Value, then: Value, other: Value } }
record! {
    TransparencyMux {
        log: Log, memory: Memory, read_port: u32, write_port: u32, data: Value, mask: Option<Value>
    }
}
record! { ExtractReadPorts { memory: Memory, ports: Vec<u32>, output: Value } }
record! { UnmapReadDff { log: Log, memory: Memory, port: u32, output: Value } }
record! {
    UnmapReadReset { log: Log, memory: Memory, port: u32, include_transparency: bool, output: Value }
}
record! { EmulateReadBeforeWrite { log: Log, memory: Memory } }
record! { MakeDataSwizzle { room: u32, memory: Memory, granularities: Vec<u32> } }
record! { SwizzleDepths { room: u32, memory: Memory, plan: Plan } }
record! { SwizzleMuxBits { memory: Memory, ports: Vec<u32>, plan: Plan } }
record! { Swizzle { request: SwizzleRequest, patches: Vec<Patch> } }
record! { CanLowerFallback { memory: Memory } }

/// Rows under a plan, without ports and log, and patches of their image.
#[derive(Clone, Debug, PartialEq, Eq)]
pub struct LayOut {
    pub image_room: u32,
    /// It has no ports.
    pub memory: Memory,
    pub plan: Plan,
    pub patches: Vec<Patch>,
}

/// Of the memory its depth, its width and its initial trits.
impl Wire for LayOut {
    fn read(words: &mut Words) -> Option<Self> {
        let image_room = words.word()?;
        let (depth, width, init) = (words.word()?, words.word()?, Trits::read(words)?);
        let memory = Memory { depth, width, init, write_ports: vec![], read_ports: vec![] };
        Some(LayOut { image_room, memory, plan: Plan::read(words)?, patches: Vec::read(words)? })
    }

    fn write(&self, out: &mut Vec<u32>) {
        out.extend([self.image_room, self.memory.depth, self.memory.width]);
        self.memory.init.write(out);
        self.plan.write(out);
        self.patches.write(out);
    }
}

impl LayOut {
    /// The layout and the patches of a swizzle.
    pub fn of(swizzle: Swizzle) -> LayOut {
        let SwizzleRequest { image_room, memory, plan, .. } = swizzle.request;
        let memory = Memory { write_ports: vec![], read_ports: vec![], ..memory };
        LayOut { image_room, memory, plan, patches: swizzle.patches }
    }

    /// A swizzle with this layout: no ports, so no wide logs, and room for the entry that depth 0 logs.
    pub fn swizzle(&self) -> SwizzleRequest {
        SwizzleRequest {
            image_room: self.image_room,
            log: Log { room: 9, used: 0, next: 2 },
            memory: self.memory.clone(),
            output: vec![],
            plan: Plan { write_logs: vec![], read_logs: vec![], ..self.plan.clone() },
        }
    }
}

record! { History { steps: Vec<Step> } }
record! { WriteRecord { room: u32, sizes: Sizes, image: Trits } }
record! { ReadRecord { room: u32, bytes: Vec<u32> } }
record! { Lister { bytes: Vec<u32> } }

/// Defines the calls: op number, variant, payload, name.
macro_rules! calls {
    ($($op:literal $variant:ident($payload:ty) $name:literal;)*) => {
        #[derive(Clone, Debug, PartialEq, Eq)]
        pub enum Call { $($variant($payload)),* }

        /// Every op.
        pub const OPS: &[u32] = &[$($op),*];

        /// The name of an op.
        pub fn name(op: u32) -> &'static str {
            match op { $($op => $name,)* _ => "unknown" }
        }

        impl Call {
            pub fn op(&self) -> u32 {
                match self { $(Call::$variant(_) => $op),* }
            }

            fn read(op: u32, words: &mut Words) -> Option<Call> {
                match op { $($op => <$payload>::read(words).map(Call::$variant),)* _ => None }
            }

            fn write(&self, out: &mut Vec<u32>) {
                match self { $(Call::$variant(payload) => payload.write(out)),* }
            }
        }
    };
}

calls! {
    1 ConstNot(ConstNot) "const_not";
    2 ConstAnd(ConstPair) "const_and";
    3 ConstOr(ConstPair) "const_or";
    4 IsUndef(IsUndef) "is_undef";
    5 ControlInverse(ControlInverse) "control inverse";
    6 RemapReset(RemapReset) "remap_reset_over_enable";
    10 DedupMux(DedupMux) "add_dedup_mux";
    11 DedupDff(DedupDff) "add_dedup_dff";
    12 BitwiseMux(BitwiseMux) "add_bitwise_mux";
    13 TransparencyMux(TransparencyMux) "transparency_mux";
    20 ExtractReadPorts(ExtractReadPorts) "extract_read_ports";
    21 UnmapReadDff(UnmapReadDff) "unmap_read_dff";
    22 UnmapReadReset(UnmapReadReset) "unmap_read_init_reset_transparency";
    23 EmulateReadBeforeWrite(EmulateReadBeforeWrite) "emulate_read_before_write";
    24 MakeDataSwizzle(MakeDataSwizzle) "make_data_swizzle";
    25 SwizzleDepths(SwizzleDepths) "swizzle_depths";
    26 SwizzleMuxBits(SwizzleMuxBits) "swizzle_mux_bits";
    27 Swizzle(Swizzle) "swizzle";
    28 CanLowerFallback(CanLowerFallback) "can_lower_fallback";
    29 LowerFallback(LowerFallback) "lower_fallback";
    30 History(History) "history";
    31 WriteRecord(WriteRecord) "record write";
    32 ReadRecord(ReadRecord) "record read";
    33 Lister(Lister) "lister";
    40 LayOut(LayOut) "layout";
}

impl Call {
    /// The call of a whole case: op, n, n words.
    pub fn from_case(given: &[u32]) -> Option<Call> {
        let (&[op, length], payload) = given.split_first_chunk()?;
        if payload.len() != length as usize {
            return None;
        }
        let mut words = Words(payload);
        let call = Call::read(op, &mut words)?;
        words.0.is_empty().then_some(call)
    }

    /// The case of the call.
    pub fn case(&self) -> Vec<u32> {
        let mut case = vec![self.op(), 0];
        self.write(&mut case);
        case[1] = (case.len() - 2) as u32;
        case
    }
}
