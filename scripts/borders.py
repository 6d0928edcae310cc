#!/usr/bin/env python3
"""Writes cases at the borders of document 01's limits to a file, in the format of docs/CALLING.md.

    python3 scripts/borders.py target/borders
    python3 scripts/borders.py --large target/large

Of each border the last size that is taken and the first that is not, for the calls over a memory that change nothing: extract_read_ports (20),
make_data_swizzle (24), swizzle_depths (25), swizzle_mux_bits (26), can_lower_fallback (28); for the calls on its ports: transparency_mux (13),
unmap_read_dff (21), unmap_read_init_reset_transparency (22), emulate_read_before_write (23); the swizzle (27), by itself and as the second step of a
history (30); the fallback (29); and the layout alone (40). `oracle/compare` runs them. With --large it writes swizzles that are long: up to 2,048 chunks and
32,768 pieces, and eight ports of each kind and of k 4; and fallbacks of as many bits as a memory may have.
"""
import array
import sys

NONE = 0xFFFFFFFF
# The largest room that a case may name.
IMAGE_ROOM = 131112
X = 0xFFFFFFFF
# A log for the calls on ports: room, used words, and a next free net above all nets of a case.
LOG = [200000, 3, 400000]
# One for fallbacks and for the large swizzles.
LARGE_LOG = [7999999, 3, 400000]


def listed(words):
    return [len(words), *words]


def nets(first, count):
    return listed([first + i for i in range(count)])


def write_port(first, addr, data, clock=(0, 7)):
    return nets(first, addr) + nets(first + 40, data) + nets(first + 5000, data) + list(clock)


def read_port(first, addr, data, relations=None, clock=(0, 7)):
    """Clocked where relations are given."""
    port = nets(first, addr) + [data]
    if relations is None:
        return port + [0]
    trits = listed([i % 3 for i in range(data)])
    return port + [1, *clock, 0, 0, 1, 9, 0, 11, 1] + 3 * trits + listed(relations)


class Memory:
    def __init__(self, depth, width, writes=(), reads=()):
        """A write port is (addr, k), a read port (addr, k) or (addr, k, relations)."""
        self.depth, self.width, self.writes, self.reads = depth, width, list(writes), list(reads)

    def rows(self):
        return [self.depth, self.width, *listed([(5 * i) % 3 for i in range(self.depth * self.width)])]

    def outputs(self):
        return sum(self.width << r[1] for r in self.reads)

    def words(self):
        out = [*self.rows(), len(self.writes), len(self.reads)]
        for i, (addr, k) in enumerate(self.writes):
            out += write_port(100 + 20000 * i, addr, self.width << k)
        for i, read in enumerate(self.reads):
            out += read_port(60 + 20000 * i, read[0], self.width << read[1], read[2] if len(read) > 2 else None)
        return out


def plan(memory, entries=None, mask=0, hard=0, unit=1, writes=None, reads=None):
    entries = list(range(memory.width)) if entries is None else entries
    writes = [k for _, k in memory.writes] if writes is None else writes
    reads = [r[1] for r in memory.reads] if reads is None else reads
    return listed(entries) + [mask] + listed(writes) + listed(reads) + [hard, unit]


def case(op, payload):
    return [op, len(payload), *payload]


def over(memory, ports=None, granularities=None, **fields):
    """The five calls on one memory, and its layout with patches of the first and the last row and of the one after."""
    ports = list(range(min(len(memory.reads), 8))) if ports is None else ports
    granularities = [1] * len(memory.writes) if granularities is None else granularities
    m, p = memory.words(), plan(memory, **fields)
    output = nets(300000, memory.outputs())
    yield case(20, m + listed(ports) + output)
    yield case(24, [NONE] + m + listed(granularities))
    yield case(25, [NONE] + m + p)
    yield case(26, m + listed(ports) + p)
    yield case(28, m)
    rows = (0, max(memory.depth, 1) - 1, memory.depth)
    patches = [word for row in rows for word in (IMAGE_ROOM, row, *listed([2, 1, 0] * (memory.width // 3) + [1] * (memory.width % 3)))]
    yield case(40, [IMAGE_ROOM] + memory.rows() + p + [len(rows)] + patches)
    swizzle = [IMAGE_ROOM] + LOG + m + output + p
    yield case(27, swizzle + [len(rows)] + patches)
    first = Memory(3, 2)
    yield case(30, [3, 1, IMAGE_ROOM] + LOG + first.words() + [0] + plan(first, hard=1) + [1] + swizzle + [3, IMAGE_ROOM, 2, 2, 1, 0])


def on_ports(memory):
    """The calls on the first and the last port of a memory, the emulation and the fallback."""
    m, output = memory.words(), nets(300000, memory.outputs())
    for port in sorted({0, max(len(memory.reads), 1) - 1}):
        length = memory.width << memory.reads[port][1] if memory.reads else 0
        for mask in ([0], [1, *nets(360000, length)]):
            yield case(13, LOG + m + [port, 0] + nets(350000, length) + mask)
        yield case(21, LOG + m + [port] + output)
        for flag in (0, 1):
            yield case(22, LOG + m + [port, flag] + output)
    yield case(23, LOG + m)
    yield case(29, LARGE_LOG + m + output)


def memories():
    both = dict(writes=[(3, 0)], reads=[(3, 0, [2])])
    for depth, width in [(5, 0), (0, 3), (0, 0), (1, 1), (32768, 1), (32769, 1), (256, 128), (257, 128), (1, 128), (1, 129), (0, 128), (0, 129), (16384, 2), (16385, 2)]:
        yield Memory(depth, width, **both)
        yield Memory(depth, width)
    for count in (7, 8, 9):
        yield Memory(4, 2, writes=[(2, 0)] * count)
        yield Memory(4, 2, reads=[(2, 0, [])] * count)
        yield Memory(4, 2, writes=[(2, 0)] * count, reads=[(2, 0, [1] * count), (2, 0)])
    for k in (2, 3, 4, 5):
        for width in (1, 3, 128):
            yield Memory(64, width, writes=[(2, k)], reads=[(2, k, [0])])
            yield Memory(64, width, reads=[(2, k)])
    for addr, k in [(31, 0), (32, 0), (33, 0), (31, 1), (32, 1), (28, 4), (29, 4), (0, 4)]:
        yield Memory(64, 2, writes=[(addr, k)])
        yield Memory(64, 2, reads=[(addr, k, [])])
    yield Memory(9, 2, writes=[(2, 0), (2, 1)], reads=[(2, 0, [1, 2]), (2, 1, [0]), (1, 0)])
    yield Memory(9, 2, writes=[(2, 0)], reads=[(2, 0, [3])])


def plans():
    small = Memory(6, 2, writes=[(3, 0), (2, 1)], reads=[(3, 0, [1, 2]), (3, 0)])
    for length in (2, 255, 256, 257):
        yield small, dict(entries=[0, 1] + [NONE] * (length - 2))
    for entries in ([0, 0], [0], [1, 0], [0, 2], [NONE, 0, NONE, 1], []):
        yield small, dict(entries=entries)
    for unit in (0, 1, 255, 256, 257):
        yield small, dict(unit=unit)
    for hard in (0, 1, 2, 3, 14, 15, 16):
        for mask in (0, 1, 2, 4, 7, 8, 0x4000, 0x80000000):
            yield small, dict(hard=hard, mask=mask)
    for writes, reads in [([0, 1], [0, 0]), ([4, 4], [4, 4]), ([5, 1], [0, 0]), ([0, 1], [0]), ([0], [0, 0]), ([0, 0], [0, 0]), ([0] * 9, [0, 0])]:
        for hard in (1, 4):
            yield small, dict(writes=writes, reads=reads, hard=hard)
    for depth in (127, 128, 129):
        for unit in (1, 255, 256):
            yield Memory(depth, 1), dict(entries=[0] + [NONE] * 255, unit=unit)
    for depth, hard in [(511, 9), (512, 9), (513, 9), (1024, 9), (1024, 10), (128, 7), (640, 7)]:
        for unit in (255, 256):
            yield Memory(depth, 1), dict(hard=hard, unit=unit)
    for depth in (16384, 32768):
        for hard in (13, 14, 15):
            yield Memory(depth, 1), dict(hard=hard, unit=4)
            yield Memory(depth, 1), dict(hard=hard, unit=8)
    for mask in (0, 1, 0x7FFFFFFF, 0xFFFFFFFF):
        for hard in (0, 15, 16):
            yield Memory(0, 3, writes=[(3, 0)], reads=[(2, 0)]), dict(mask=mask, hard=hard)


def lists():
    small = Memory(6, 4, writes=[(3, 0)], reads=[(3, 0, [1]), (3, 0), (2, 1)])
    for ports in ([], [0], [2, 2], [1, 0, 2], [3], [0] * 8, [0] * 9, [2, 5], [NONE]):
        yield small, dict(ports=ports)
    for granularities in ([0], [1], [2], [3], [4], [63], [64], [65], [], [1, 1]):
        yield small, dict(granularities=granularities)
        yield Memory(3, 128, writes=[(2, 0)]), dict(granularities=granularities)
    for width in (100, 127, 128):
        yield Memory(3, width, writes=[(2, 0)] * 8), dict(granularities=[64] * 8)
        yield Memory(3, width, writes=[(2, 0)] * 8), dict(granularities=[1, 2, 4, 8, 16, 32, 64, 3])


def rooms():
    """Result rooms that are exact, and one short."""
    small = Memory(6, 2, writes=[(3, 0)], reads=[(3, 0)])
    for room in range(5):
        yield case(24, [room] + small.words() + listed([1]))
        yield case(25, [room] + small.words() + plan(small, hard=1))


def large():
    """Deep memories in many chunks and pieces, and wide ports; one case each without patches and with two. Fallbacks of large memories."""
    def swizzled(memory, **fields):
        row = listed([1] * memory.width)
        head = [IMAGE_ROOM] + LARGE_LOG + memory.words() + nets(300000, memory.outputs()) + plan(memory, **fields)
        yield case(27, head + [0])
        yield case(27, head + [2, IMAGE_ROOM, memory.depth - 1, *row, IMAGE_ROOM, memory.depth // 2, *row])

    for depth, hard in [(32768, 4), (32768, 5), (32767, 4), (16384, 3), (8191, 2)]:
        yield from swizzled(Memory(depth, 1, writes=[(15, 0)], reads=[(15, 0, [1])]), hard=hard)
        yield from swizzled(Memory(depth, 1, reads=[(15, 0), (14, 0, [])]), hard=hard, unit=8)
    for depth, mask in [(2048, 0x7FF), (1024, 0x3FF), (2048, 0x555), (2048, 0x2AA), (4096, 0xF00)]:
        yield from swizzled(Memory(depth, 1, writes=[(15, 0)], reads=[(15, 0, [0])]), mask=mask, hard=4, writes=[4], reads=[4])
        yield from swizzled(Memory(depth, 1, writes=[(11, 2)], reads=[(9, 4)]), mask=mask, hard=4, unit=3, writes=[3], reads=[4])
    for hard, unit in [(9, 32), (5, 32), (5, 17), (6, 256)]:
        yield from swizzled(Memory(512, 32, writes=[(5, 4)] * 8, reads=[(5, 4, [2] * 8)] * 8), hard=hard, unit=unit)
    yield from swizzled(Memory(256, 128, writes=[(4, 4)] * 8, reads=[(8, 0, [2] * 8)] * 8), hard=5, unit=128, writes=[4] * 8, reads=[0] * 8)
    for memory in [
        Memory(256, 128, writes=[(4, 4)] * 8, reads=[(4, 4, [0] * 8)] * 8),
        Memory(256, 128, writes=[(4, 4), (8, 0)], reads=[(4, 4, [2, 2]), (8, 0, [2, 1]), (7, 1)]),
        Memory(32768, 1, writes=[(15, 0)], reads=[(15, 0, [2])]),
        Memory(32768, 1, reads=[(15, 0, []), (11, 4), (16, 0)]),
        Memory(16384, 2, writes=[(10, 4), (16, 0)], reads=[(14, 0, [0, 2])]),
    ]:
        yield case(29, LARGE_LOG + memory.words() + nets(300000, memory.outputs()))


def all_cases():
    for memory in memories():
        yield from over(memory, hard=4)
        yield from on_ports(memory)
    for memory, fields in plans():
        yield from over(memory, **fields)
    for memory, fields in lists():
        yield from over(memory, hard=4, **fields)
    yield from rooms()


def main():
    made = large if sys.argv[1:2] == ['--large'] else all_cases
    if len(sys.argv) != (3 if made is large else 2):
        sys.exit('usage: borders.py [--large] FILE')
    count = 0
    with open(sys.argv[-1], 'wb') as out:
        for words in made():
            data = array.array('I', words)
            if sys.byteorder == 'big':
                data.byteswap()
            out.write(data.tobytes())
            count += 1
    print(count, 'cases')


main()
