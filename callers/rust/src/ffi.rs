//! The exported functions and their structs, as `callers/tablegoose.h` has them: the only unsafe code of this crate.
//!
//! Each function takes slices where C takes a pointer and a length, and codes and nets as plain numbers, so that bad ones can be given too: they are
//! refused by a number. What a function does, its numbers and the room that it needs stand in the header. The other modules are the usual way to call.

/// The refusal number or 0, and a value.
#[repr(C)]
#[derive(Clone, Copy, Debug, Default, PartialEq, Eq)]
pub struct Answer {
    /// 0, or why the call is refused.
    pub number: u32,
    /// 0 where it is refused.
    pub value: u32,
}

/// A net, or its inverse.
#[repr(C)]
#[derive(Clone, Copy, Debug, Default, PartialEq, Eq)]
pub struct Control {
    /// 0 Pos, 1 Neg; any other is refused by 4.
    pub polarity: u32,
    /// The net.
    pub net: u32,
}

/// Defines a struct of C's layout whose fields are all public.
macro_rules! c_struct {
    ($(#[$doc:meta])* $name:ident { $($field:ident: $kind:ty),* $(,)? }) => {
        $(#[$doc])*
        #[repr(C)]
        #[derive(Clone, Copy, Debug, PartialEq, Eq)]
        #[allow(missing_docs)]
        pub struct $name { $(pub $field: $kind),* }
    };
}

c_struct! {
    /// The refusal number or 0, and a control.
    ControlAnswer { number: u32, control: Control }
}
c_struct! {
    /// What drives a net: a cell by its number, or a constant by its trit's code.
    Driver { is_cell: u32, value: u32 }
}
c_struct! {
    /// The trit that a net always is, where `known` is 1.
    Constant { known: u32, trit: u32 }
}
c_struct! {
    /// The refusal number or 0, and a count.
    Count { number: u32, count: usize }
}
c_struct! {
    /// The log's used words and the next free net.
    #[derive(Default)]
    LogState { used: usize, next: u32 }
}
c_struct! {
    /// The controls of a flip-flop.
    #[derive(Default)]
    Controls { clock: Control, clear: Control, reset: Control, enable: Control, reset_over_enable: u32 }
}
c_struct! {
    /// The refusal number or 0, and the log's state after the call.
    Logged { number: u32, state: LogState }
}
c_struct! {
    /// The same with a net.
    NetLogged { number: u32, net: u32, state: LogState }
}
c_struct! {
    /// The same with controls.
    ControlsLogged { number: u32, controls: Controls, state: LogState }
}
c_struct! {
    /// A write port: the lengths of its parts in `nets`, and its clock.
    #[derive(Default)]
    WritePort { addr_len: u32, data_len: u32, mask_len: u32, clock: Control }
}
c_struct! {
    /// A read port: the lengths of its parts in `nets` and `trits`, its relations, and its flip-flop where `clocked` is 1.
    #[derive(Default)]
    ReadPort {
        addr_len: u32, data_len: u32, clear_len: u32, reset_len: u32, init_len: u32, relations_len: u32,
        relations: [u8; MAX_PORTS],
        clocked: u32, clock: Control, clear: Control, reset: Control, enable: Control, reset_over_enable: u32,
    }
}
c_struct! {
    /// A memory; its nets and trits stand in two lent arrays.
    #[derive(Default)]
    Memory {
        depth: u32, width: u32, init_len: u32, write_count: u32, read_count: u32,
        write_ports: [WritePort; MAX_PORTS],
        read_ports: [ReadPort; MAX_PORTS],
    }
}
c_struct! {
    /// The refusal number or 0, and a port's part of the outputs.
    Slice { number: u32, start: usize, size: usize }
}
c_struct! {
    /// The refusal number or 0, and a memory.
    Extracted { number: u32, memory: Memory }
}
c_struct! {
    /// The refusal number or 0, and the memory and the log's state after the call.
    Driven { number: u32, memory: Memory, state: LogState }
}
c_struct! {
    /// A plan without its lists.
    #[derive(Default)]
    MemorySwizzle { soft_addr_bits_mask: u32, hard_addr_bits: u32, data_width_unit: u32 }
}
c_struct! {
    /// The refusal number or 0, and the mux bits of the write ports and of the listed read ports.
    MuxBits { refusal: u32, writes: [u32; MAX_PORTS], reads: [u32; MAX_PORTS] }
}
c_struct! {
    /// A layout without its entries.
    #[derive(Default)]
    Params { depth: u32, width: u32, soft_mask: u32, hard: u32, unit: u32 }
}
c_struct! {
    /// The state that a swizzle hands on: a layout with its entries. The unit is 0 where there is none.
    Laid { depth: u32, width: u32, soft_mask: u32, hard: u32, unit: u32, len: u32, entries: [u32; MAX_ROW] }
}
c_struct! {
    /// Where an entry of a row goes.
    Place { memory: u64, row: u64, bit: u64, index: u64 }
}
c_struct! {
    /// The refusal number or 0, and a place.
    Placed { number: u32, place: Place }
}
c_struct! {
    /// What a layout gives.
    Shape { full_mems: u64, all_mems: u64, full_depth: u64, part_depth: u64, columns: u64, trits: u64, image_size: u64 }
}
c_struct! {
    /// The refusal number or 0, and a shape.
    Measured { number: u32, shape: Shape }
}
c_struct! {
    /// The sizes of a record.
    #[derive(Default)]
    Sizes { unit: u32, full: u32, full_depth: u32, partial: u32, partial_depth: u32 }
}
c_struct! {
    /// The refusal number or 0, and the sizes of a record.
    Head { number: u32, sizes: Sizes }
}
c_struct! {
    /// What stands in a memory of an image.
    Summary { index: usize, depth: usize, known: usize, ones: usize }
}
c_struct! {
    /// The refusal number or 0, and a summary.
    Summarized { number: u32, summary: Summary }
}
c_struct! {
    /// A part of a lent array.
    Part { start: usize, size: usize }
}
c_struct! {
    /// A write port of all memories that a swizzle gives: the length of their address, and the wide log.
    #[derive(Default)]
    WideWritePort { addr_len: u32, wide: u32, clock: Control }
}
c_struct! {
    /// A read port of all memories, with the first of its output nets, and its flip-flop where `clocked` is 1.
    #[derive(Default)]
    WideReadPort {
        addr_len: u32, wide: u32, first: u32, relations_len: u32,
        relations: [u8; MAX_PORTS],
        clocked: u32, clock: Control, clear: Control, reset: Control, enable: Control, reset_over_enable: u32,
    }
}
c_struct! {
    /// The memories that a swizzle gives; their nets, trits and images stand in three lent arrays.
    #[derive(Default)]
    WideMemory {
        full: u32, mems: u32, full_depth: u32, part_depth: u32, unit: u32, write_count: u32, read_count: u32,
        write_ports: [WideWritePort; MAX_PORTS],
        read_ports: [WideReadPort; MAX_PORTS],
    }
}
c_struct! {
    /// The refusal number or 0; the log's state after a swizzle, its memories and what they have of the arrays; the state for patches and the record's sizes.
    Swizzled { number: u32, state: LogState, memory: WideMemory, nets_used: usize, trits_used: usize, laid: Laid, sizes: Sizes }
}
c_struct! {
    /// What a swizzle gives, and the number of the list of patches after it.
    SwizzledPatches { swizzled: Swizzled, patches: u32 }
}

/// Read ports, write ports, and the length of a list of ports.
pub const MAX_PORTS: usize = 8;
/// Entries of a row.
pub const MAX_ROW: usize = 256;

/// Defines a function of slices for each exported one: a slice is a pointer and a length there.
macro_rules! exported {
    ($($name:ident($($given:tt)*) -> $result:ty;)*) => {
        $(lent! { $name $result [] [] [] $($given)*, })*
    };
}

macro_rules! lent {
    ($name:ident $result:ty [$($taken:tt)*] [$($declared:tt)*] [$($handed:tt)*] $(,)?) => {
        #[doc = concat!("`tablegoose_", stringify!($name), "`: see the header.")]
        #[allow(clippy::too_many_arguments)]
        pub fn $name($($taken)*) -> $result {
            unsafe extern "C" {
                #[link_name = concat!("tablegoose_", stringify!($name))]
                fn call($($declared)*) -> $result;
            }
            // Safety: each pointer comes with its slice's own length, a slice that is written to overlaps no other, and the function is proved to
            // stay inside them for any values.
            unsafe { call($($handed)*) }
        }
    };
    ($n:ident $r:ty [$($t:tt)*] [$($d:tt)*] [$($h:tt)*] $x:ident: &mut [$kind:ty], $($rest:tt)*) => {
        lent! { $n $r [$($t)* $x: &mut [$kind],] [$($d)* _: *mut $kind, _: usize,] [$($h)* $x.as_mut_ptr(), $x.len(),] $($rest)* }
    };
    ($n:ident $r:ty [$($t:tt)*] [$($d:tt)*] [$($h:tt)*] $x:ident: &[$kind:ty], $($rest:tt)*) => {
        lent! { $n $r [$($t)* $x: &[$kind],] [$($d)* _: *const $kind, _: usize,] [$($h)* $x.as_ptr(), $x.len(),] $($rest)* }
    };
    ($n:ident $r:ty [$($t:tt)*] [$($d:tt)*] [$($h:tt)*] $x:ident: $kind:ty, $($rest:tt)*) => {
        lent! { $n $r [$($t)* $x: $kind,] [$($d)* _: $kind,] [$($h)* $x,] $($rest)* }
    };
}

exported! {
    trit_not(a: u8) -> Answer;
    trit_and(a: u8, b: u8) -> Answer;
    trit_or(a: u8, b: u8) -> Answer;
    const_is_undef(a: &[u8]) -> Answer;
    const_not(out: &mut [u8], a: &[u8]) -> u32;
    const_and(out: &mut [u8], a: &[u8], b: &[u8]) -> u32;
    const_or(out: &mut [u8], a: &[u8], b: &[u8]) -> u32;
    slice_refusal(start: usize, end: usize, size: usize) -> u32;
    net_of_cell(cell: u32) -> Answer;
    cell_of_net(net: u32) -> Driver;
    net_is_const(net: u32) -> u32;
    net_as_const(net: u32) -> Constant;
    control_not(c: Control) -> ControlAnswer;
    control_is_always(c: Control, v: u32) -> Answer;
    value_is_undef(v: &[u32]) -> Answer;
    zext(out: &mut [u32], v: &[u32], n: usize) -> u32;
    narrower_select(out: &mut [u32], waddr: &[u32], raddr: &[u32], kw: u32, kr: u32) -> Count;
}

exported! {
    add_void(log: &mut [u32], st: LogState, width: u32) -> Logged;
    add_not(log: &mut [u32], st: LogState, a: &[u32]) -> Logged;
    add_and(log: &mut [u32], st: LogState, a: &[u32], b: &[u32]) -> Logged;
    add_or(log: &mut [u32], st: LogState, a: &[u32], b: &[u32]) -> Logged;
    add_eq(log: &mut [u32], st: LogState, a: &[u32], b: &[u32]) -> Logged;
    replace_value(log: &mut [u32], st: LogState, from: &[u32], to: &[u32]) -> Logged;
    add_shl(log: &mut [u32], st: LogState, stride: u32, select: &[u32], a: &[u32]) -> Logged;
    add_ushr(log: &mut [u32], st: LogState, stride: u32, select: &[u32], a: &[u32]) -> Logged;
    add_mux(log: &mut [u32], st: LogState, select: Control, a: &[u32], b: &[u32]) -> Logged;
    add_dff(log: &mut [u32], st: LogState, c: Controls, bits: &[u32], clear: &[u8], reset: &[u8], init: &[u8]) -> Logged;
    into_pos(log: &mut [u32], st: LogState, c: Control) -> NetLogged;
    remap_reset_over_enable(log: &mut [u32], st: LogState, c: Controls) -> ControlsLogged;
    add_dedup_mux(log: &mut [u32], st: LogState, out: &mut [u32], select: Control, a: &[u32], b: &[u32]) -> Logged;
    add_dedup_dff(log: &mut [u32], st: LogState, out: &mut [u32], c: Controls, bits: &[u32], clear: &[u8], reset: &[u8], init: &[u8]) -> Logged;
    add_bitwise_mux(log: &mut [u32], st: LogState, out: &mut [u32], s: &[u32], a: &[u32], b: &[u32]) -> Logged;
}

exported! {
    wide_log2(width: u32, size: usize) -> Answer;
    memory_refusal(m: Memory, nets: &[u32], trits: &[u8]) -> u32;
    output_len(m: Memory, nets: &[u32], trits: &[u8]) -> Count;
    read_port_output_slice(m: Memory, nets: &[u32], trits: &[u8], port: usize) -> Slice;
    can_lower_fallback(m: Memory, nets: &[u32], trits: &[u8]) -> Answer;
    extract_read_ports(
        room_nets: &mut [u32], room_trits: &mut [u8], room_output: &mut [u32],
        m: Memory, nets: &[u32], trits: &[u8], list: &[u32], output: &[u32]
    ) -> Extracted;
    make_data_swizzle(out: &mut [u32], m: Memory, nets: &[u32], trits: &[u8], granularities: &[u32]) -> Count;
    swizzle_depths(
        out: &mut [u32], m: Memory, nets: &[u32], trits: &[u8],
        s: MemorySwizzle, entries: &[u32], writes: &[u32], reads: &[u32]
    ) -> u32;
    swizzle_mux_bits(
        m: Memory, nets: &[u32], trits: &[u8], ports: &[u32],
        s: MemorySwizzle, entries: &[u32], writes: &[u32], reads: &[u32]
    ) -> MuxBits;
}

exported! {
    unmap_read_dff(log: &mut [u32], st: LogState, output: &mut [u32], m: Memory, nets: &[u32], trits: &[u8], port: usize) -> Driven;
    unmap_read_init_reset_transparency(
        log: &mut [u32], st: LogState, output: &mut [u32], trits: &mut [u8],
        m: Memory, nets: &[u32], port: usize, include_transparency: bool
    ) -> Driven;
    transparency_mux(
        log: &mut [u32], st: LogState, bits_to: &mut [u32], mask_to: &mut [u32],
        m: Memory, nets: &[u32], trits: &[u8], read: usize, write: usize, bits: &[u32], mask: &[u32], masked: bool
    ) -> Logged;
    emulate_read_before_write(log: &mut [u32], st: LogState, nets: &mut [u32], m: Memory, trits: &[u8]) -> Driven;
}

exported! {
    measure(p: Params, entries: &[u32]) -> Measured;
    fill_rows(image: &mut [u8], p: Params, entries: &[u32], rows: &[u8]) -> u32;
    patch_row(image: &mut [u8], p: Params, entries: &[u32], row: u32, trits: &[u8]) -> u32;
    read_row(room: &mut [u8], p: Params, entries: &[u32], image: &[u8], row: u32) -> u32;
    place_of(p: Params, entries: &[u32], row: u32, entry: usize) -> Placed;
    patch_each(buffer: &mut [u8], numbers: &mut [u32], p: Params, entries: &[u32], calls: &[u32], trits: &[u8]) -> u32;
    fill_then_patch(
        buffer: &mut [u8], numbers: &mut [u32], p: Params, entries: &[u32], rows: &[u8], calls: &[u32], trits: &[u8]
    ) -> u32;
    unset() -> Laid;
    laid_out(p: Params, entries: &[u32]) -> Laid;
    fill(image: &mut [u8], laid: Laid, rows: &[u8]) -> u32;
    patch(image: &mut [u8], laid: Laid, row: u32, trits: &[u8]) -> u32;
    read_laid_row(room: &mut [u8], laid: Laid, image: &[u8], row: u32) -> u32;
    patch_all(buffer: &mut [u8], numbers: &mut [u32], laid: Laid, calls: &[u32], trits: &[u8]) -> u32;
    fill_and_patch(buffer: &mut [u8], numbers: &mut [u32], laid: Laid, rows: &[u8], calls: &[u32], trits: &[u8]) -> u32;
    sizes_of(laid: Laid) -> Head;
}

exported! {
    swizzle(
        log: &mut [u32], st: LogState, image: &mut [u8], nets_to: &mut [u32], trits_to: &mut [u8], scratch: &mut [u32],
        m: Memory, nets: &[u32], trits: &[u8], output: &[u32],
        s: MemorySwizzle, entries: &[u32], writes: &[u32], reads: &[u32]
    ) -> Swizzled;
    swizzle_and_patch(
        log: &mut [u32], st: LogState, image: &mut [u8], nets_to: &mut [u32], trits_to: &mut [u8], scratch: &mut [u32], numbers: &mut [u32],
        m: Memory, nets: &[u32], trits: &[u8], output: &[u32],
        s: MemorySwizzle, entries: &[u32], writes: &[u32], reads: &[u32], calls: &[u32], rows: &[u8]
    ) -> SwizzledPatches;
    swizzled_depth(g: WideMemory, n: usize) -> u32;
    swizzled_image(g: WideMemory, n: usize) -> Part;
    swizzled_write_addr(g: WideMemory, n: usize, j: usize) -> Part;
    swizzled_write_data(g: WideMemory, n: usize, j: usize) -> Part;
    swizzled_write_mask(g: WideMemory, n: usize, j: usize) -> Part;
    swizzled_read_addr(g: WideMemory, n: usize, i: usize) -> Part;
    swizzled_clear(g: WideMemory, n: usize, i: usize) -> Part;
    swizzled_reset(g: WideMemory, n: usize, i: usize) -> Part;
    swizzled_init(g: WideMemory, n: usize, i: usize) -> Part;
    swizzled_output(g: WideMemory, n: usize, i: usize, bit: usize) -> u32;
    lower_fallback(
        log: &mut [u32], st: LogState, scratch: &mut [u32], m: Memory, nets: &[u32], trits: &[u8], output: &[u32]
    ) -> Logged;
}

exported! {
    write_record(out: &mut [u8], sizes: Sizes, image: &[u8]) -> Count;
    read_record(image: &mut [u8], bytes: &[u8]) -> Head;
    record_header(first: &[u8], total: usize) -> Head;
    memory_summary(sizes: Sizes, image: &[u8], index: usize) -> Summarized;
    list_record(out: &mut [u8], bytes: &[u8]) -> Count;
    list_input(out: &mut [u8], first: &[u8], total: usize) -> Count;
}
