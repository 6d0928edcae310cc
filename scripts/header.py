#!/usr/bin/env python3
"""Checks callers/tablegoose.h and callers/rust/src/ffi.rs against the exported functions of crates/tablegoose_c and against target/libtablegoose.a.

    scripts/archive && python3 scripts/header.py

- Every symbol of the archive is declared exactly once in the header, and every declared function is in the archive; so are the sources' functions.
- The header's prototypes, sizes and offsets are those that the sources give: a probe redeclares each function and asserts each struct's layout, and
  must compile. The layout is computed here, by C's rules, from the fields' types.
- ffi.rs has the same structs, field by field, and the same functions, parameter by parameter.
- The header's limits are those of crates/rules, and the texts of the refusal numbers are the same in C and in Rust.

scripts/test_header.py tries it: a swapped field, a wrong parameter and a missing function must be found.
"""
import glob
import re
import subprocess
import sys
import tempfile

HEADER = 'callers/tablegoose.h'
FFI = 'callers/rust/src/ffi.rs'
REFUSAL = 'callers/rust/src/refusal.rs'
ARCHIVE = 'target/libtablegoose.a'

# A struct of the sources, its name in the header without the prefix, and in ffi.rs.
STRUCTS = [
    ('c_net::Result', 'result', 'Answer'),
    ('c_net::Control', 'control', 'Control'),
    ('c_net::ControlResult', 'control_result', 'ControlAnswer'),
    ('c_net::Driver', 'driver', 'Driver'),
    ('c_net::Constant', 'constant', 'Constant'),
    ('c_net::Count', 'count', 'Count'),
    ('log_entries::LogState', 'log_state', 'LogState'),
    ('c_log::Controls', 'controls', 'Controls'),
    ('c_log::Logged', 'logged', 'Logged'),
    ('c_log::NetLogged', 'net_logged', 'NetLogged'),
    ('c_log::ControlsLogged', 'controls_logged', 'ControlsLogged'),
    ('c_memory::WritePort', 'write_port', 'WritePort'),
    ('c_memory::ReadPort', 'read_port', 'ReadPort'),
    ('c_memory::Memory', 'memory', 'Memory'),
    ('c_memory::Slice', 'slice', 'Slice'),
    ('c_memory::Extracted', 'extracted', 'Extracted'),
    ('c_port::Driven', 'driven', 'Driven'),
    ('swizzle_plan::MemorySwizzle', 'memory_swizzle', 'MemorySwizzle'),
    ('c_plan::MuxBits', 'mux_bits', 'MuxBits'),
    ('image_geometry::Params', 'params', 'Params'),
    ('image_geometry::Shape', 'shape', 'Shape'),
    ('image_rows::Place', 'place', 'Place'),
    ('image_state::Laid', 'laid', 'Laid'),
    ('c_image::MeasuredResult', 'measured', 'Measured'),
    ('c_image::PlacedResult', 'placed', 'Placed'),
    ('record_sizes::Sizes', 'sizes', 'Sizes'),
    ('swizzle_parts::Part', 'part', 'Part'),
    ('c_swizzle::WideWritePort', 'wide_write_port', 'WideWritePort'),
    ('c_swizzle::WideReadPort', 'wide_read_port', 'WideReadPort'),
    ('c_swizzle::WideMemory', 'wide_memory', 'WideMemory'),
    ('c_swizzle::Swizzled', 'swizzled', 'Swizzled'),
    ('c_swizzle::SwizzledPatches', 'swizzled_patches', 'SwizzledPatches'),
    ('record_listing::Summary', 'summary', 'Summary'),
    ('c_record::Head', 'head', 'Head'),
    ('c_record::SummaryResult', 'summarized', 'Summarized'),
]
IN_HEADER = {source: name for source, name, _ in STRUCTS}
IN_FFI = {source: name for source, _, name in STRUCTS}

NUMBERS = {'bool': ('bool', 1), 'u8': ('uint8_t', 1), 'u32': ('uint32_t', 4), 'u64': ('uint64_t', 8), 'usize': ('size_t', 8)}

FUNCTION = re.compile(r'#\[unsafe\(no_mangle\)\]\s*pub extern "C" fn (\w+)(?:<[^>]*>)?\((.*?)\)\s*(?:->\s*([\w:]+))?\s*(?:ensures|\{)', re.S)
STRUCT = re.compile(r'#\[repr\(C\)\]\s*(?:#\[derive[^\n]*\s*)?pub struct (\w+) \{(.*?)\n\}', re.S)


def uncommented(text):
    """Without comments, and without lifetimes in types."""
    return re.sub(r"&'\w+ ", '&', re.sub(r'//[^\n]*', '', text))


def split_list(text):
    """The parts of a list at its outer commas."""
    parts, depth, part = [], 0, ''
    for letter in text:
        depth += (letter in '[(') - (letter in '])')
        if letter == ',' and depth == 0:
            parts.append(part)
            part = ''
        else:
            part += letter
    return [p.strip() for p in parts + [part] if p.strip()]


def named(text):
    """Pairs of a name and a type."""
    return [tuple(x.strip() for x in part.split(':', 1)) for part in split_list(text)]


class Sources:
    """The structs and exported functions of the crates, by (crate) and name; texts are pairs of a crate's name and a file's text."""

    def __init__(self, texts):
        self.structs, self.functions, self.limits, self.uses = {}, {}, {}, {}
        for crate, text in texts:
            text = uncommented(text)
            uses = self.uses.setdefault(crate, {})
            for path, names in re.findall(r'^use ([\w:]+)::\{?([\w,\s]+)\}?;', text, re.M):
                for name in re.findall(r'\w+', names):
                    uses.setdefault(name, set()).add(path.split('::')[0])
            for name, fields in STRUCT.findall(text):
                self.structs[f'{crate}::{name}'] = [(f.removeprefix('pub ').strip(), t) for f, t in named(fields)]
            for name, given, result in FUNCTION.findall(text):
                self.functions[name] = (crate, named(given), result or None)
            if crate == 'rules':
                self.limits.update({n: int(v) for n, v in re.findall(r'pub const (\w+): \w+ = (\d+);', text)})

    def full_name(self, crate, kind):
        """A struct's crate and name, from a type in a crate."""
        first, *rest = kind.split('::')
        if rest:
            return f'{crate if first == "crate" else first}::{rest[-1]}'
        if f'{crate}::{kind}' in self.structs:
            return f'{crate}::{kind}'
        found = [f'{other}::{kind}' for other in self.uses.get(crate, {}).get(kind, []) if other != 'crate']
        return found[0] if len(found) == 1 else f'{crate}::{kind}'

    def array(self, kind):
        """The element type and the length of an array type."""
        match = re.fullmatch(r'\[([\w:]+); ([\w:]+)\]', kind)
        if not match:
            return None
        length = match[2].split('::')[-1]
        return match[1], int(length) if length.isdigit() else self.limits[length]

    def layout(self, crate, kind):
        """Size and alignment by C's rules."""
        if kind in NUMBERS:
            return NUMBERS[kind][1], NUMBERS[kind][1]
        array = self.array(kind)
        if array:
            size, align = self.layout(crate, array[0])
            return size * array[1], align
        name = self.full_name(crate, kind)
        offsets, size, align = self.struct_layout(name)
        return size, align

    def struct_layout(self, name):
        """The offset of each field, the size and the alignment of a struct."""
        at, most, offsets = 0, 1, []
        for field, kind in self.structs[name]:
            size, align = self.layout(name.split('::')[0], kind)
            at = (at + align - 1) // align * align
            offsets.append((field, at))
            at, most = at + size, max(most, align)
        return offsets, (at + most - 1) // most * most, most

    def c_type(self, crate, kind):
        if kind in NUMBERS:
            return NUMBERS[kind][0]
        return 'tablegoose_' + IN_HEADER.get(self.full_name(crate, kind), 'UNKNOWN_' + kind.replace('::', '_'))

    def c_parameters(self, crate, kind):
        slice_of = re.fullmatch(r'&(mut )?\[(\w+)\]', kind)
        if slice_of:
            return ('' if slice_of[1] else 'const ') + NUMBERS[slice_of[2]][0] + ' *, size_t'
        return self.c_type(crate, kind)

    def probe(self):
        """A C text that compiles only beside a header with the same prototypes and layouts."""
        lines = ['#include "tablegoose.h"']
        for name, (crate, given, result) in sorted(self.functions.items()):
            parameters = ', '.join(self.c_parameters(crate, kind) for _, kind in given) or 'void'
            lines.append(f'{self.c_type(crate, result) if result else "void"} {name}({parameters});')
        for source, short in sorted(IN_HEADER.items()):
            if source not in self.structs:
                continue
            offsets, size, align = self.struct_layout(source)
            lines.append(f'_Static_assert(sizeof(tablegoose_{short}) == {size} && _Alignof(tablegoose_{short}) == {align}, "{source}");')
            lines += [f'_Static_assert(offsetof(tablegoose_{short}, {field}) == {at}, "{source}.{field}");' for field, at in offsets]
        return '\n'.join(lines) + '\n'

    def rust_type(self, crate, kind, given=IN_FFI):
        array = self.array(kind)
        if array:
            return f'[{self.rust_type(crate, array[0])}; {array[1]}]'
        if kind in NUMBERS or kind.startswith('&'):
            return kind
        return given.get(self.full_name(crate, kind), 'UNKNOWN ' + kind)


def declared(header):
    """The functions that a header declares, each as often as it does."""
    text = re.sub(r'/\*.*?\*/', '', header, flags=re.S)
    return re.findall(r'^[a-z_0-9]+ (tablegoose_\w+)\(', text, re.M)


def symbol_faults(header, symbols, sources):
    names = declared(header)
    for name in sorted(set(names)):
        if names.count(name) != 1:
            yield f'{name} is declared {names.count(name)} times'
        if name not in symbols:
            yield f'{name} is declared and not in the archive'
    for name in sorted(set(symbols) - set(names)):
        yield f'{name} is in the archive and not declared'
    for name in sorted(set(sources.functions) ^ set(symbols)):
        yield f'{name} is in one of the archive and the sources only'


def limit_faults(header, sources):
    for name, value in re.findall(r'#define TABLEGOOSE_(\w+) (\d+)u?\b', header):
        if name in sources.limits and sources.limits[name] != int(value):
            yield f'TABLEGOOSE_{name} is {value}, in crates/rules {sources.limits[name]}'
        if name not in sources.limits and name != 'MAX_LINE':
            yield f'TABLEGOOSE_{name} is no limit of crates/rules'


def probe_faults(header, sources):
    """What the compiler says of the probe beside this header."""
    for source in sorted(set(IN_HEADER) - set(sources.structs)):
        yield f'{source} is in the table and not in the sources'
    with tempfile.TemporaryDirectory() as folder:
        open(f'{folder}/tablegoose.h', 'w').write(header)
        open(f'{folder}/probe.c', 'w').write(sources.probe())
        command = ['gcc', '-std=c11', '-Wall', '-Wextra', '-Werror', '-pedantic', '-fsyntax-only', f'{folder}/probe.c']
        done = subprocess.run(command, capture_output=True, text=True)
        yield from (line.split(': ', 1)[1] for line in done.stderr.splitlines() if ': error: ' in line)
        if done.returncode and ': error: ' not in done.stderr:
            yield 'the probe does not compile'


def ffi_faults(ffi, sources):
    text = uncommented(ffi)
    limits = {n: v for n, v in re.findall(r'pub const (\w+): usize = (\d+);', text)}
    plain = lambda kind: re.sub(r'; (\w+)\]', lambda m: f'; {limits.get(m[1], m[1])}]', kind)
    structs = {n: f for n, f in STRUCT.findall(re.sub(r'#\[derive[^\n]*\n', '', text))}
    structs.update(re.findall(r'c_struct! \{\s*(?:#\[derive[^\n]*\s*)?(\w+) \{(.*?)\}', text, re.S))
    found = {n: [(f.removeprefix('pub ').strip(), plain(t)) for f, t in named(fields)] for n, fields in structs.items()}
    for source, name in IN_FFI.items():
        if source in sources.structs:
            crate = source.split('::')[0]
            expected = [(field, sources.rust_type(crate, kind)) for field, kind in sources.structs[source]]
            if found.get(name) != expected:
                yield f'ffi.rs: {name} is not {source}: {found.get(name)}, {expected}'
    lists = ''.join(re.findall(r'^exported! \{(.*?)^\}', text, re.M | re.S))
    functions = {n: (named(g), r) for n, g, r in re.findall(r'(\w+)\((.*?)\) -> (\w+);', lists, re.S)}
    for name, (crate, given, result) in sorted(sources.functions.items()):
        expected = ([(n, sources.rust_type(crate, kind)) for n, kind in given], sources.rust_type(crate, result) if result else None)
        if functions.get(name.removeprefix('tablegoose_')) != expected:
            yield f'ffi.rs: {name}: {functions.get(name.removeprefix("tablegoose_"))}, in the sources {expected}'
    for name in sorted(set(functions) - {n.removeprefix('tablegoose_') for n in sources.functions}):
        yield f'ffi.rs: {name} is in no source'


def text_faults(header, refusal):
    """A text for each number, the same in the header and in Rust."""
    numbers = {n: int(v) for n, v in re.findall(r'(TABLEGOOSE_\w+) = (\d+)', header)}
    in_c = {numbers[n]: text for n, text in re.findall(r'case (TABLEGOOSE_\w+): return "(.*?)";', header)}
    listed = re.search(r'const TEXTS.*?= \[(.*?)\];', refusal, re.S)[1]
    in_rust = {n: text for n, text in enumerate(re.findall(r'"(.*?)",', listed), 1) if text}
    in_c.pop(0, None)
    for number in sorted(set(in_c) | set(in_rust) | set(range(1, 24)) - {19}):
        if in_c.get(number) is None or in_c.get(number) != in_rust.get(number):
            yield f'number {number} is {in_c.get(number)!r} in C and {in_rust.get(number)!r} in Rust'


def all_faults(header, ffi, symbols, sources):
    yield from symbol_faults(header, symbols, sources)
    yield from limit_faults(header, sources)
    yield from probe_faults(header, sources)
    yield from ffi_faults(ffi, sources)


def sources_here():
    crates = re.findall(r'^(\w+)(?: staticlib)?:', open('crates.txt').read(), re.M)
    return Sources([(c, open(path).read()) for c in crates for path in sorted(glob.glob(f'crates/{c}/src/**/*.rt', recursive=True))])


def symbols_of(archive):
    names = subprocess.run(['nm', '--defined-only', '--extern-only', archive], capture_output=True, text=True, check=True).stdout
    return [line.split()[2] for line in names.splitlines() if len(line.split()) == 3]


def main():
    header = open(HEADER).read()
    faults = list(all_faults(header, open(FFI).read(), symbols_of(ARCHIVE), sources_here()))
    faults += text_faults(header, open(REFUSAL).read())
    for fault in faults:
        print('header:', fault)
    return 1 if faults else 0


if __name__ == '__main__':
    sys.exit(main())
