#!/usr/bin/env python3
"""Tries header.py on edited copies of the header and of ffi.rs: each edit must be found."""
import sys

sys.dont_write_bytecode = True
import header  # noqa: E402

# A text of the header, what it becomes, and a part of what must be said then.
HEADER_EDITS = [
    ('    uint32_t known;\n    uint32_t trit;\n', '    uint32_t trit;\n    uint32_t known;\n', 'Constant.known'),
    ('    uint32_t clear_len;\n    uint32_t reset_len;\n', '    uint32_t reset_len;\n    uint32_t clear_len;\n', 'ReadPort.clear_len'),
    ('    tablegoose_control clear;\n    tablegoose_control reset;\n    tablegoose_control enable;\n    uint32_t reset_over_enable;\n} tablegoose_read_port',
     '    tablegoose_control reset;\n    tablegoose_control clear;\n    tablegoose_control enable;\n    uint32_t reset_over_enable;\n} tablegoose_read_port', 'ReadPort.clear'),
    ('    uint32_t init_len;\n    uint32_t relations_len;\n    uint8_t relations[TABLEGOOSE_MAX_PORTS];\n',
     '    uint32_t init_len;\n    uint32_t relations_len;\n    uint32_t relations[TABLEGOOSE_MAX_PORTS];\n', 'ReadPort'),
    ('    uint32_t first;\n    uint32_t relations_len;\n', '    uint32_t relations_len;\n    uint32_t first;\n', 'WideReadPort.first'),
    ('    size_t nets_used;\n    size_t trits_used;\n', '    size_t trits_used;\n    size_t nets_used;\n', 'Swizzled.nets_used'),
    ('tablegoose_part tablegoose_swizzled_image(tablegoose_wide_memory g, size_t n);', '', 'tablegoose_swizzled_image'),
    ('    uint32_t depth;\n    uint32_t width;\n    uint32_t init_len;\n', '    uint32_t width;\n    uint32_t depth;\n    uint32_t init_len;\n', 'Memory.depth'),
    ('tablegoose_result tablegoose_trit_not(uint8_t a);', 'tablegoose_result tablegoose_trit_not(uint32_t a);', 'tablegoose_trit_not'),
    ('tablegoose_result tablegoose_trit_not(uint8_t a);', 'tablegoose_driver tablegoose_trit_not(uint8_t a);', 'tablegoose_trit_not'),
    ('tablegoose_result tablegoose_trit_not(uint8_t a);', '', 'tablegoose_trit_not'),
    ('tablegoose_result tablegoose_trit_not(uint8_t a);',
     'tablegoose_result tablegoose_trit_not(uint8_t a);\ntablegoose_result tablegoose_trit_not(uint8_t a);', 'declared 2 times'),
    ('tablegoose_result tablegoose_trit_not(uint8_t a);',
     'tablegoose_result tablegoose_trit_not(uint8_t a);\ntablegoose_result tablegoose_trit_xor(uint8_t a);', 'tablegoose_trit_xor'),
    ('uint32_t tablegoose_const_not(uint8_t *out,', 'uint32_t tablegoose_const_not(const uint8_t *out,', 'tablegoose_const_not'),
    ('#define TABLEGOOSE_MAX_HARD 15', '#define TABLEGOOSE_MAX_HARD 16', 'MAX_HARD'),
]

# The same of ffi.rs.
FFI_EDITS = [
    ('Constant { known: u32, trit: u32 }', 'Constant { trit: u32, known: u32 }', 'Constant'),
    ('Count { number: u32, count: usize }', 'Count { number: u32, count: u32 }', 'Count'),
    ('trit_not(a: u8) -> Answer;', 'trit_not(a: u32) -> Answer;', 'tablegoose_trit_not'),
    ('const_not(out: &mut [u8], a: &[u8]) -> u32;', 'const_not(a: &[u8], out: &mut [u8]) -> u32;', 'tablegoose_const_not'),
    ('WideWritePort { addr_len: u32, wide: u32,', 'WideWritePort { wide: u32, addr_len: u32,', 'WideWritePort'),
    ('swizzled_output(g: WideMemory, n: usize, i: usize, bit: usize) -> u32;', 'swizzled_output(g: WideMemory, n: usize, bit: usize, i: usize) -> u32;', 'swizzled_output'),
    ('trit_not(a: u8) -> Answer;', '', 'tablegoose_trit_not'),
    ('trit_not(a: u8) -> Answer;', 'trit_not(a: u8) -> Answer;\n    trit_xor(a: u8) -> Answer;', 'trit_xor'),
    ('clear_len: u32, reset_len: u32, init_len: u32, relations_len: u32', 'reset_len: u32, clear_len: u32, init_len: u32, relations_len: u32', 'ReadPort'),
]


def main():
    text, ffi, sources = open(header.HEADER).read(), open(header.FFI).read(), header.sources_here()
    symbols = list(sources.functions)
    before = set(header.all_faults(text, ffi, symbols, sources))
    failed = []
    for is_ffi, edits in ((False, HEADER_EDITS), (True, FFI_EDITS)):
        for old, new, want in edits:
            whole = ffi if is_ffi else text
            if whole.count(old) != 1:
                failed.append(f'stands {whole.count(old)} times: {old!r}')
                continue
            edited = whole.replace(old, new)
            found = set(header.all_faults(*((text, edited) if is_ffi else (edited, ffi)), symbols, sources)) - before
            if not any(want in fault for fault in found):
                failed.append(f'not found ({want}): {old!r} -> {new!r}: {found}')
    for fault in failed:
        print('test_header:', fault)
    return 1 if failed else 0


if __name__ == '__main__':
    sys.exit(main())
