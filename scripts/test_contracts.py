#!/usr/bin/env python3
"""Tries contracts.py, stdouts.py and edits.py on small texts: each trick must be found, and each good text must pass."""
import sys

sys.dont_write_bytecode = True
import contracts  # noqa: E402
import edits  # noqa: E402
import stdouts  # noqa: E402

EQUATION = '{ result ≡ sum a.old }'
FILLED = '{ filled_with result out.new ≡ fill_call out.old n }'

# A function with scratch: found, unless the list has it.
WITH_SCRATCH = 'pub fn f(out: &mut [u8], n: u32) -> u32 ensures { result ≡ n } { n }'

# A lent struct, and a function of it that leaves a field open: found, unless the list has the field.
ROOM = 'pub struct Room { pub nets: [u32; 4], #[a(b, c)] pub spare: [u32; 4] } '
LAST = 'pub struct Outer<\'a> { room: Room, st: &\'a mut Room, at: usize } '
HALF = 'pub fn f(room: &mut Room) ensures { room.new.nets ≡ g } { }'

# A function's text, and a part of what contracts.py must say of it.
TRICKS = [
    ('pub fn f(x: u32) -> u32 { x }', 'has no ensures'),
    ('pub fn f(x: u32) -> u32\n    // ensures { result ≡ x }\n{ x }', 'has no ensures'),
    ('pub fn f(x: u32) -> u32\n    /* ensures { result ≡ x } */\n{ x }', 'has no ensures'),
    ('pub fn f(x: u32) -> u32\n    /* /* */ ensures { result ≡ x } */\n{ x }', 'has no ensures'),
    ('pub fn f(x: u32) -> u32 { g(b"ensures"); x }', 'has no ensures'),
    ('pub const fn f(x: u32) -> u32 requires { x < 9 } ensures { result ≡ x } { x }', 'has a requires'),
    ('pub extern "C" fn f(x: u32) -> u32 requires { x < 9 } ensures { result ≡ x } { x }', 'has a requires'),
    ('pub unsafe fn f(x: u32) -> u32 ensures { result ≡ x } requires { x < 9 } { x }', 'has a requires'),
    ('pub const unsafe extern "C" fn f<\'a>(a: &\'a [u32]) -> u32 { 0 }', 'has no ensures'),
    ('impl S { pub fn f(self) -> u32 { 0 } }', 'has no ensures'),
    ('fn g() {} pub fn f() -> u32 { 0 }', 'has no ensures'),
    ('#[unsafe(no_mangle)] extern "C" fn f() -> u32 { 0 }', 'has no ensures'),
    ('#[unsafe(no_mangle)]\npub(crate) extern "C" fn f() -> u32 { 0 }', 'has no ensures'),
    ('pub fn f(x: u32) -> u32 ensures { x ≡ x } { x }', 'equals itself'),
    ('pub fn f(x: u32) -> u32 ensures value { result ≡ x } ensures more { result ≡ result } { x }', 'equals itself'),
    ('pub fn f(x: u32) -> u32 ensures { (result ≡ x) × ((x) ≡ x) } { x }', 'equals itself'),
    ('pub fn f(x: u32) -> u32 ensures { ((n : ℕ) → result + (n) ≡ (result) + n) } { x }', 'equals itself'),
    ('pub fn f(x: u32) -> u32 ensures { result ≤ result } { x }', 'always holds'),
    ('pub fn f(x: u32) -> u32 ensures { (result ≡ 0 → ⊤) } { x }', 'always holds'),
    ('pub fn f(x: u32) -> u32 ensures { (result ≡ x → result ≡ x) } { x }', 'conclusion as a premise'),
    ('pub fn f(x: u32) -> u32 ensures { (⊥ → result ≡ 7) } { x }', 'cannot hold'),
    ('pub fn f(x: u32) -> u32 ensures { (0 ≡ 1 → result ≡ 7) } { x }', 'cannot hold'),
    ('pub fn f(x: u32) -> u32 ensures { (0x10 ≡ 15 → result ≡ 7) } { x }', 'cannot hold'),
    ('pub fn f(x: u32) -> u32 ensures { (true ≡ false → result ≡ 7) } { x }', 'cannot hold'),
    ('pub fn f(x: u32) -> u32 ensures { (x < x → result ≡ 7) } { x }', 'cannot hold'),
    ('pub fn f(x: u32) -> u32 ensures { (x < 0 → result ≡ 7) } { x }', 'cannot hold'),
    ('pub fn f(x: u32) -> u32 ensures { (5 ≤ 4 → result ≡ 7) } { x }', 'cannot hold'),
    ('pub fn f(x: u32) -> u32 ensures { (x ≡ x + 1 → result ≡ 7) } { x }', 'cannot hold'),
    ('pub fn f(x: u32) -> u32 ensures { (suc x ≡ 0 → result ≡ 7) } { x }', 'cannot hold'),
    ('pub fn f(x: u32) -> u32 ensures { (¬ (x ≡ x) → result ≡ 7) } { x }', 'cannot hold'),
    ('pub fn f(x: u32) -> u32 ensures { ((h : ⊥) → result ≡ 7) } { x }', 'cannot hold'),
    ('pub fn f(x: u32) -> u32 ensures { ((n : ℕ) → n < n → result ≡ 7) } { x }', 'cannot hold'),
    ('pub fn f(x: u32) -> u32 ensures { ((x ≡ 0) × (x ≡ 1) → result ≡ 7) } { x }', 'cannot hold'),
    ('pub fn f(x: u32) -> u32 ensures { (x ≡ 0 → x ≡ 1 → result ≡ 7) } { x }', 'cannot hold'),
    ('pub fn f(x: u32) -> u32 ensures { 0 ≡ 1 →ₛ result ≡ 7 } { x }', 'cannot hold'),
    ('pub fn f(x: u32) -> u32 ensures { x ≡ 3 } { x }', 'says its result'),
    ('pub fn f(x: u32) -> u32 ensures { Good } { x }', 'says its result'),
    ('pub fn f(x: u32) -> u32 ensures { (result ≡ 0 → x ≡ 0) } { x }', 'says its result'),
    ('pub fn f(x: u32) -> u32 ensures { result ≤ 9 } { x }', 'says its result'),
    ('pub fn f(x: u32) -> u32 ensures { ((result : ℕ) → result ≡ g result) } { x }', 'binds result anew'),
    ('pub fn f(x: u32) -> u32 ensures { Each (λ result. result ≡ g x) l } { x }', 'binds result anew'),
    ('pub fn f(x: u32) -> u32 ensures { let result = x in result ≡ x } { x }', 'binds result anew'),
    ('pub fn f(x: u32) -> u32 ensures { x ≡ 3 -- result ≡ 3\n } { x }', 'comment in a clause'),
    ('pub fn f(x: u32) -> u32 ensures { x ≡ "result" } { x }', 'says its result'),
    (WITH_SCRATCH, 'says out after the call'),
    ('pub fn f(out: &mut [u8], n: u32) ensures { out.old ≡ g n } { }', 'says out after the call'),
    ('pub fn f(out: &mut [u8]) ensures { length out.new ≡ length out.old } { }', 'says out after the call'),
    ('pub fn f(a: &mut [u8], b: &\'a mut S) ensures { a.new ≡ g } { }', 'says b after the call'),
    ('pub struct W<\'a> { out: &\'a mut [u8] } pub fn f<\'a>(w: W<\'a>) ensures { g ≡ 3 } { }', 'says w.out after the call'),
    ('pub struct W<\'a> { out: &\'a mut [u8] } impl W<\'_> { pub fn f(self) ensures { g ≡ 3 } { } }', 'says self.out after the call'),
    ('type Room<\'a> = &\'a mut [u8]; pub fn f<\'a>(to: Room<\'a>) ensures { g ≡ 3 } { }', 'says to after the call'),
    ('pub fn f(&mut self) ensures { g ≡ 3 } { }', 'says self after the call'),
    ('pub fn f(n: [u8; 4], out: &mut [u8; 4]) ensures { n ≡ g } { }', 'says out after the call'),
    (ROOM + HALF, 'says room.spare after the call'),
    (ROOM + 'pub fn f(room: &\'a mut Room) ensures { g ≡ 3 } { }', 'says room.nets after the call'),
    (ROOM + 'impl Room { fn g() {} pub fn f(&mut self) ensures { self.new.nets ≡ g } { } }', 'says self.spare after the call'),
    (ROOM + 'impl Over<Room> for Room { pub fn f(other: &mut Self) ensures { other.new.nets ≡ g } { } }', 'says other.spare after the call'),
    (ROOM + 'pub fn f(room: &mut Room) ensures { (room.new).nets ≡ length room.new.spare } { }', 'says room.spare after the call'),
    (ROOM + 'pub fn f(room: &mut Room) ensures { (room.new.spare ≡ g → room.new.nets ≡ g) } { }', 'says room.spare after the call'),
    (ROOM + 'pub fn f(room: &mut Room) ensures { let r = room.new in r.nets ≡ g } { }', 'says room.spare after the call'),
    (ROOM + 'pub fn f(room: &mut Room) ensures { let y = g in let r = (room.new) in r.nets ≡ y } { }', 'says room.spare after the call'),
    (ROOM + LAST + 'pub fn f(o: &mut Outer) ensures { (o.new.room ≡ g) × ((o.new.st.nets ≡ g) × (o.new.at ≡ 3)) } { }', 'says o.st.spare after the call'),
    (ROOM + LAST + 'pub fn f(o: &mut Outer) ensures { (o.new.room.nets ≡ g) × ((o.new.st ≡ g) × (o.new.at ≡ 3)) } { }', 'says o.room.spare after the call'),
    ('pub fn f(room: &mut Strange) ensures { room.new.nets ≡ g } { }', 'says room after the call'),
    ('pub trait T { fn f(self) -> u32; }', 'f has no ensures'),
    ('pub unsafe trait T: Copy + From<[u8; 4]> { fn g(); fn f(self) -> u32; }', 'f has no ensures'),
    ('pub trait T { fn g() -> u32 ensures { result ≡ 3 }; final fn f(x: u32) -> u32 { x } }', 'f has no ensures'),
    ('pub trait T { fn f(x: u32) -> u32 requires { x < 9 } ensures { result ≡ x }; }', 'has a requires'),
    ('pub trait T { fn f(x: u32) -> u32 ensures { x ≡ 3 }; }', 'says its result'),
    ('pub trait T { fn f(&mut self, x: u32) -> u32 ensures { result ≡ x }; }', 'says self after the call'),
    (ROOM + 'pub trait T { fn f(&self, room: &mut Room) ensures { room.new.nets ≡ g }; }', 'says room.spare after the call'),
    ('pub fn f(x: u32) -> u32 ensures { result ≡ x } trusted { 1 } { x }', 'clause of another kind'),
    ('ghost use specs.Lies.{◌≡◌};', 'another module'),
    ('ghost use specs.Lies.{same as ◌≡◌};', 'another module'),
    ('ghost use Rattle.rules.specs.Lies.{result};', 'another module'),
]

# Texts in which contracts.py must find nothing.
GOOD = [
    f'pub fn f(a: &[u32]) -> u32 ensures {EQUATION} {{ 0 }}',
    f'pub fn f<\'a>(a: &\'a [u32]) -> u32 ensures named {EQUATION} {{ 0 }}',
    f'pub fn f(out: &mut [u8], n: u32) -> u32\n    ensures {FILLED}\n{{ n }}',
    f'#[unsafe(no_mangle)]\npub extern "C" fn f(out: &mut [u8], n: u32) -> u32 ensures {FILLED} {{ n }}',
    'pub fn f(m: M) -> u32 ensures value { ((nets trits : List ℕ) → result ≡ read_at_of (memory_of m nets trits)) } ensures more { result < 9 } { 0 }',
    'pub fn f(out: &mut [u8]) -> R ensures { Record n result out.new } { 0 }',
    'pub fn f(room_nets: &mut [u8]) ensures { «room_nets».new ≡ g } { }',
    'pub fn f(x: u32) -> u32 ensures value { result ≡ x } ensures more { g x ≡ h } { x }',
    'pub fn f(x: u32) -> u32 ensures value { (is_whole x ≡ false → result ≡ 0) } ensures more { Put x result } { x }',
    'pub fn f(x: u32) -> u32 ensures { let y = g x in result ≡ map (λ z. z + y) x } { x }',
    ROOM + 'pub fn f(room: &mut Room) ensures { room.new ≡ g } { }',
    ROOM + 'pub fn f(room: &mut Room) ensures { Made (length room.old.nets) room.new } { }',
    ROOM + 'pub fn f(room: &mut Room) ensures { made room.old ≡ record { state = 3; room = room.new; at = 4 } } { }',
    ROOM + 'pub fn f(room: &mut Room) ensures { (room.new.nets ≡ g) × (take 3 room.new.spare ≡ h) } { }',
    ROOM + 'pub fn f(room: &mut Room) ensures nets { room.new.nets ≡ g } ensures spare { room.new.spare ≡ room.old.spare } { }',
    ROOM + 'pub fn f(room: &mut Room) ensures { let r = g room.new in r ≡ h } { }',
    ROOM + 'impl<\'a> Room { pub fn f(&mut self) -> u32 ensures { result ≡ g self.new } { 0 } }',
    ROOM + 'impl Room { pub fn f(&self) -> u32 ensures { result ≡ g self.now.nets } { 0 } }',
    'pub struct W<\'a> { out: &\'a mut [u8] } impl W<\'_> { pub fn f(&self) -> u32 ensures { result ≡ g self.now } { 0 } }',
    ROOM + LAST + 'pub fn f(o: &mut Outer) ensures { (o.new.room ≡ g) × ((o.new.st ≡ g) × (o.new.at ≡ 3)) } { }',
    'pub trait T { ghost op: { ℕ → ℕ }; fn f(x: u32) -> u32 ensures { result ≡ op x }; }',
    'trait T { fn f(self) -> u32; } pub(crate) trait U { fn f(x: u32) -> u32 requires { x < 9 }; }',
    'fn f(x: u32) -> u32 requires { x < 9 } { x }',
    'pub(crate) fn f(x: u32) -> u32 requires { x < 9 } { x }',
    '// pub fn f(x: u32) -> u32 { x }\n/* pub fn g() {} */',
    'pub struct S { pub a: u32 } fn f() -> S { 0 }',
    'pub const N: usize = 4;\nfn f() -> u32 { 0 }',
    'ghost use Rattle.std.specs.Prelude.{◌≡◌};',
]

# Two functions of one name, of which one leaves `self` open.
TWO = 'pub fn f(a: &mut [u8]) ensures { a.new ≡ g } { } impl S { pub fn f(&mut self) ensures { Good } { } }'

# A text, what the list has of its `f`, and whether that is just what is open.
LISTS = [
    (WITH_SCRATCH, ('out',), True),
    (GOOD[2], ('out',), False),
    (ROOM + HALF, ('room.spare',), True),
    (ROOM + HALF, ('room.spare', 'room.nets'), False),
    (ROOM + HALF, ('room',), False),
    (ROOM + 'pub fn f(room: &mut Room) ensures { Made room.new } { }', ('room.spare',), False),
    (TWO, ('self',), True),
    (TWO, ('self', 'a'), False),
    (TWO, (), False),
    ('pub trait T { fn f(x: u32) -> u32; }', ('ensures', 'result'), True),
    ('pub trait T { fn f(x: u32) -> u32 ensures { result ≡ x }; }', ('ensures', 'result'), False),
]

# Structs of one name in two crates, what a third crate's file says before `HALF`, and whether `HALF` then says all.
ROOMS = [('crates/a/src/lib.rt', 'Room', [('nets', '[u32; 4]'), ('spare', '[u32; 4]')]), ('crates/b/src/room.rt', 'Room', [('nets', '[u32; 4]')])]
USES = [('use a::Room;', False), ('use a::{Other, Room};', False), ('use b::room::Room;', True), ('use b::{Other, Room};', True), ('', False),
        (ROOM, False)]

# Stored output with a fault, and without.
WRONG_OUTPUT = ['nets: 9 compared, 3 wrong', 'kind 1: 7 of 8: accepted 3', 'nets: 0 compared, 0 wrong', 'kind 1: 0 of 0: accepted 0',
                'write the first gives 14 DIFFERENT kept', 'read nothing refused 16 CHANGED', 'patch 1 0 changed 2 1', '']
RIGHT_OUTPUT = ['nets: 9 compared, 0 wrong', 'kind 1: 8 of 8: accepted 3, 1: 0', 'read nothing refused 16 kept', 'patch 1 0 changed 2 0']

SAID = 'refused, as it must be: '
PROOF = SAID + './proofs/f/Answers.antt:14:15: error: `returns`: '
# What `rt ci` says of edits that a fact refused.
FACTS = [
    PROOF + 'expected type `columns three ≡ 4`, but this has type `columns three ≡ columns three`',
    PROOF + 'as printed, the two types differ only where one has `has no field` (expected) and the other has `b` (found)',
    PROOF + '`omega`: the goal does not follow from what it read. It did not look at every field',
    PROOF + 'give a proof of that as the last argument, `rw L t`',
    PROOF + '`slice_refusal start end size` ≟ `when b then 15 else 0`',
    SAID + 'note: src/lib.rt:7:1: it is not proved that what the function ensures holds when it returns (`returns`); the facts known there allow va',
]
# The same of edits that do not count: another reason, no refusal, an error outside proofs, an error of no known kind.
SHAPES = [
    PROOF + 'module `T` has no `returns-3` that can be named from here',
    PROOF + 'record `T.Else2` has no field `if1`',
    PROOF + 'this is applied to an argument but has type `a`, which is not a function or extension (path) type',
    PROOF + '`x` is not in scope',
    PROOF + 'no proof: expected a file',
    PROOF + 'something else',
    SAID + './proofs/f/Answers.antt: error: `c` has no function `f` for this file to be the proof of',
    SAID + 'src/lib.rt:3:4: error: the two types differ',
    SAID + 'note: to see how far a `search` got, write `search rules`',
    'refused, as it must be (only because a proof file names what the edit took away, so this says little of the contract: change a value and keep the '
    'names): ./proofs/f/Answers.antt:14:15: error: `returns`: expected type `a`',
    'refused, as it must be (only by a limit of the prover, which gave no verdict, so this says less of the contract: choose a change that it refuses sooner)',
    'refused, as it must be',
    'BAD EDIT: an \'old:\' text is in src/lib.rt 0 times, and not once',
    'NOT REFUSED: the crate is still proved with this edit',
    'NOT TRIED: its check was killed, most likely for memory',
    '',
]


def main():
    failed = []
    for text, want in TRICKS:
        found = list(contracts.text_faults(text, 'f.rt'))
        if not any(want in fault for fault in found):
            failed.append(f'not found ({want}): {text!r}: {found}')
    for text in GOOD:
        for fault in contracts.text_faults(text, 'f.rt'):
            failed.append(f'found in a good text: {text!r}: {fault}')
    for text, left_open, just in LISTS:
        found = list(contracts.text_faults(text, 'f.rt', {'f.rt f': left_open}))
        if just == bool(found):
            failed.append(f'list: {text!r}, {left_open}: {found}')
    for before, whole in USES:
        found = list(contracts.text_faults(before + HALF, 'crates/c/src/lib.rt', declared=ROOMS))
        if whole == bool(found):
            failed.append(f'struct of {before!r}: {found}')
    failed += [f'output passes: {text!r}' for text in WRONG_OUTPUT if not list(stdouts.text_faults(text))]
    failed += [f'output fails: {text!r}' for text in RIGHT_OUTPUT if list(stdouts.text_faults(text))]
    failed += [f'edit does not count: {told!r}' for told in FACTS if edits.fault(told)]
    failed += [f'edit counts: {told!r}' for told in SHAPES if not edits.fault(told)]
    for fault in failed:
        print('test_contracts:', fault)
    return 1 if failed else 0


if __name__ == '__main__':
    sys.exit(main())
