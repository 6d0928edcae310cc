//! Ops 27 and 30: a swizzle with patches, and histories, whose fallbacks are in `fallbacks`. Log and image have the rooms of the case, the other rooms are
//! exactly as large as needed; each of these is also tried one short. Op 27 runs by single patches and at once, and both must agree.

use tablegoose::SwizzleRooms;
use tablegoose::ffi::{self, LogState, WideMemory};

use crate::calls::{IMAGE_ROOM, Outcome, logged};
use crate::fallbacks;
use crate::layouts::{patch_lent, patches};
use crate::lent::Lent;
use crate::wire::{Memory, Plan, Words, put_control, put_list};

/// What a swizzle asks for.
struct Asked {
    image_room: usize,
    log_room: usize,
    st: LogState,
    m: Memory,
    output: Lent<u32>,
    plan: Plan,
}

/// The rooms of a call.
struct Rooms {
    log: Lent<u32>,
    image: Lent<u8>,
    nets: Lent<u32>,
    trits: Lent<u8>,
    scratch: Lent<u32>,
}

/// What an accepted swizzle gave and wrote.
#[derive(PartialEq, Eq)]
struct Ran {
    answer: ffi::Swizzled,
    log: Vec<u32>,
    image: Vec<u8>,
    nets: Vec<u32>,
    trits: Vec<u8>,
}

impl Asked {
    fn read(words: &mut Words) -> Option<Asked> {
        let image_room = (words.word()? as usize).min(IMAGE_ROOM);
        let ((log_room, st), m) = (words.log_room()?, words.memory()?);
        Some(Asked { image_room, log_room, st, m, output: words.words("output")?, plan: words.plan()? })
    }

    /// What the call needs beside the log; the image has the room of the case.
    fn needs(&self) -> SwizzleRooms {
        let p = &self.plan;
        SwizzleRooms::of(&self.m.numbers, p.numbers, p.entries.get(), p.writes.get(), p.reads.get())
    }

    fn rooms(&self, needs: SwizzleRooms) -> Rooms {
        Rooms {
            log: Lent::room("log", self.log_room),
            image: Lent::room("image", self.image_room),
            nets: Lent::room("nets_to", needs.nets),
            trits: Lent::room("trits_to", needs.trits),
            scratch: Lent::room("scratch", needs.scratch),
        }
    }

    fn call(&self, rooms: &mut Rooms) -> ffi::Swizzled {
        let (m, p) = (&self.m, &self.plan);
        ffi::swizzle(
            rooms.log.get_mut(),
            self.st,
            rooms.image.get_mut(),
            rooms.nets.get_mut(),
            rooms.trits.get_mut(),
            rooms.scratch.get_mut(),
            m.numbers,
            m.nets.get(),
            m.trits.get(),
            self.output.get(),
            p.numbers,
            p.entries.get(),
            p.writes.get(),
            p.reads.get(),
        )
    }

    fn call_and_patch(&self, rooms: &mut Rooms, numbers: &mut [u32], calls: &[u32], rows: &[u8]) -> ffi::SwizzledPatches {
        let (m, p) = (&self.m, &self.plan);
        ffi::swizzle_and_patch(
            rooms.log.get_mut(),
            self.st,
            rooms.image.get_mut(),
            rooms.nets.get_mut(),
            rooms.trits.get_mut(),
            rooms.scratch.get_mut(),
            numbers,
            m.numbers,
            m.nets.get(),
            m.trits.get(),
            self.output.get(),
            p.numbers,
            p.entries.get(),
            p.writes.get(),
            p.reads.get(),
            calls,
            rows,
        )
    }

    /// What a call wrote, or its number; a refused one gives back the state and no memories.
    fn ran(&self, needs: SwizzleRooms, mut rooms: Rooms, answer: ffi::Swizzled) -> Result<Ran, u32> {
        if logged(answer.number, self.st, answer.state) != 0 {
            let none = ffi::Swizzled {
                number: answer.number,
                state: self.st,
                memory: WideMemory::default(),
                nets_used: 0,
                trits_used: 0,
                laid: ffi::unset(),
                sizes: ffi::Sizes::default(),
            };
            assert!(answer == none, "finding: a refused swizzle gives something");
            return Err(answer.number);
        }
        let params = self.plan.params(self.m.numbers.depth, self.m.numbers.width);
        assert!(answer.laid == ffi::laid_out(params, self.plan.entries.get()), "finding: another state than the layout's");
        let head = ffi::sizes_of(answer.laid);
        assert!(head.number == 0 && answer.sizes == head.sizes, "finding: other sizes than the layout's");
        assert!((answer.nets_used, answer.trits_used) == (needs.nets, needs.trits), "finding: other counts of nets and trits");
        rooms.scratch.wrote(0..needs.scratch);
        Ok(Ran {
            log: rooms.log.wrote(self.st.used..answer.state.used).to_vec(),
            image: rooms.image.wrote(0..needs.image).to_vec(),
            nets: rooms.nets.wrote(0..needs.nets).to_vec(),
            trits: rooms.trits.wrote(0..needs.trits).to_vec(),
            answer,
        })
    }

    /// The swizzle by itself, and with each of its own rooms one short.
    fn run(&self) -> Result<Ran, u32> {
        let needs = self.needs();
        let mut rooms = self.rooms(needs);
        let answer = self.call(&mut rooms);
        // The numbers of the input stand before that of the rooms.
        let number = if matches!(answer.number, 0 | 20 | 21) { 20 } else { answer.number };
        for short in one_short(needs) {
            let mut rooms = self.rooms(short);
            let answer = self.call(&mut rooms);
            let refused = self.ran(needs, rooms, answer).err();
            assert!(refused == Some(number), "finding: {refused:?} and not {number} with a room one short: {short:?} of {needs:?}");
        }
        self.ran(needs, rooms, answer)
    }

    /// The swizzle and its patches at once: what it gave and wrote, and the number of each patch.
    fn run_and_patch(&self, calls: &Lent<u32>, rows: &Lent<u8>) -> Result<(Ran, Vec<u32>), u32> {
        let (needs, count) = (self.needs(), calls.get().len() / 4);
        let (mut rooms, mut numbers) = (self.rooms(needs), Lent::room("numbers", count));
        let both = self.call_and_patch(&mut rooms, numbers.get_mut(), calls.get(), rows.get());
        assert!(both.patches == both.swizzled.number, "finding: the list's number is {}", both.patches);
        let ran = self.ran(needs, rooms, both.swizzled)?;
        Ok((ran, numbers.wrote(0..count).to_vec()))
    }
}

/// The same needs with one room short by one, for each room that is not empty.
fn one_short(needs: SwizzleRooms) -> impl Iterator<Item = SwizzleRooms> {
    let short = [
        needs.nets.checked_sub(1).map(|nets| SwizzleRooms { nets, ..needs }),
        needs.trits.checked_sub(1).map(|trits| SwizzleRooms { trits, ..needs }),
        needs.scratch.checked_sub(1).map(|scratch| SwizzleRooms { scratch, ..needs }),
    ];
    short.into_iter().flatten()
}

/// One patch by the state that a swizzle handed on, and the row read back where it is accepted.
fn patched(image: &mut Vec<u8>, laid: ffi::Laid, room: u32, row: u32, given: &[u8]) -> u32 {
    let number = patch_lent(image, room, |lent| ffi::patch(lent, laid, row, given));
    if number == 0 {
        let mut back = Lent::room("room", given.len());
        let read = ffi::read_laid_row(back.get_mut(), laid, image, row);
        assert!(read == 0 && back.wrote_all() == given, "finding: row {row} reads back otherwise: {read}");
    }
    number
}

pub fn swizzle(words: &mut Words) -> Option<Outcome> {
    let (asked, (calls, rows)) = (Asked::read(words)?, patches(words)?);
    words.end()?;
    let (calls, rows) = (Lent::of("calls", calls), Lent::of("rows", rows));
    let (ran, at_once) = (asked.run(), asked.run_and_patch(&calls, &rows));
    let ran = match ran {
        Ok(ran) => ran,
        Err(number) => {
            assert!(at_once.is_err_and(|other| other == number), "finding: swizzle_and_patch is not refused by {number}");
            return Some(Err(number));
        }
    };
    let mut image = ran.image.clone();
    let mut patch = |call: &[u32]| {
        let &[row, start, count, room] = call else { unreachable!("four words") };
        patched(&mut image, ran.answer.laid, room, row, &rows.get()[start as usize..(start + count) as usize])
    };
    let numbers: Vec<u32> = calls.get().chunks_exact(4).map(&mut patch).collect();
    let mut out = vec![];
    ran.put(&mut out);
    put_list(&mut out, &numbers);
    put_list(&mut out, &image);
    assert!(at_once == Ok((Ran { image, ..ran }, numbers)), "finding: swizzle_and_patch and single calls differ");
    Some(Ok(out))
}

impl Ran {
    /// The log's part of the answer, then each memory with its output.
    fn put(&self, out: &mut Vec<u32>) {
        out.extend([self.answer.state.used as u32, self.answer.state.next]);
        put_list(out, &self.log);
        out.push(self.answer.memory.mems);
        for n in 0..self.answer.memory.mems as usize {
            self.put_memory(n, out);
        }
    }

    fn put_nets(&self, out: &mut Vec<u32>, part: ffi::Part) {
        put_list(out, &self.nets[part.start..part.start + part.size]);
    }

    fn put_trits(&self, out: &mut Vec<u32>, part: ffi::Part) {
        put_list(out, &self.trits[part.start..part.start + part.size]);
    }

    fn put_memory(&self, n: usize, out: &mut Vec<u32>) {
        let g = self.answer.memory;
        let image = ffi::swizzled_image(g, n);
        out.extend([ffi::swizzled_depth(g, n), g.unit]);
        put_list(out, &self.image[image.start..image.start + image.size]);
        out.extend([g.write_count, g.read_count]);
        for j in 0..g.write_count as usize {
            let parts = [ffi::swizzled_write_addr(g, n, j), ffi::swizzled_write_data(g, n, j), ffi::swizzled_write_mask(g, n, j)];
            parts.into_iter().for_each(|part| self.put_nets(out, part));
            put_control(out, g.write_ports[j].clock);
        }
        let mut outputs = vec![];
        for i in 0..g.read_count as usize {
            let data_len = g.unit << g.read_ports[i].wide;
            self.put_read(n, i, data_len, out);
            outputs.extend((0..data_len as usize).map(|bit| ffi::swizzled_output(g, n, i, bit)));
        }
        put_list(out, &outputs);
    }

    fn put_read(&self, n: usize, i: usize, data_len: u32, out: &mut Vec<u32>) {
        let g = self.answer.memory;
        let port = &g.read_ports[i];
        self.put_nets(out, ffi::swizzled_read_addr(g, n, i));
        out.extend([data_len, port.clocked]);
        let trits = [ffi::swizzled_clear(g, n, i), ffi::swizzled_reset(g, n, i), ffi::swizzled_init(g, n, i)];
        if port.clocked == 0 {
            assert!(trits.iter().all(|part| part.size == 0), "finding: a port without a flip-flop has trits");
            return;
        }
        [port.clock, port.clear, port.reset, port.enable].iter().for_each(|&control| put_control(out, control));
        out.push(port.reset_over_enable);
        trits.into_iter().for_each(|part| self.put_trits(out, part));
        put_list(out, &port.relations[..port.relations_len as usize]);
    }
}

/// A step of a history.
enum Step {
    Swizzle(Box<Asked>),
    Fallback(Box<fallbacks::Asked>),
    Patch { room: u32, row: u32, trits: Vec<u8> },
}

impl Step {
    fn read(words: &mut Words) -> Option<Step> {
        match words.word()? {
            1 => Some(Step::Swizzle(Box::new(Asked::read(words)?))),
            2 => Some(Step::Fallback(Box::new(fallbacks::Asked::read(words)?))),
            3 => Some(Step::Patch { room: words.word()?, row: words.word()?, trits: words.bytes()? }),
            _ => None,
        }
    }
}

/// One laid-out state goes through all steps; only an accepted swizzle exchanges it, with its image.
pub fn history(words: &mut Words) -> Option<Outcome> {
    let count = words.word()?;
    let steps: Vec<Step> = (0..count).map(|_| Step::read(words)).collect::<Option<_>>()?;
    words.end()?;
    let (mut laid, mut image, mut numbers) = (ffi::unset(), vec![], vec![]);
    for step in &steps {
        numbers.push(match step {
            Step::Swizzle(asked) => match asked.run() {
                Ok(ran) => {
                    (laid, image) = (ran.answer.laid, ran.image);
                    0
                }
                Err(number) => number,
            },
            Step::Fallback(asked) => asked.run().err().unwrap_or(0),
            Step::Patch { room, row, trits } => {
                let given = Lent::of("trits", trits.clone());
                patched(&mut image, laid, *room, *row, given.get())
            }
        });
    }
    let mut out = vec![];
    put_list(&mut out, &numbers);
    put_list(&mut out, &image);
    Some(Ok(out))
}
