//! A table as text and as an image record, both ways:
//!
//!     table split < TABLE > RECORD              the rows laid out over the memories
//!     table misplace < TABLE > RECORD           the same with chunk bits taken as soft bits first, then the high bits: a mistake, to be told apart
//!     table list < RECORD                       what stands in each memory
//!     table memories FOLDER < RECORD            a `$readmemb` file for each memory: memory_0.mem, memory_1.mem and so on
//!     table patch TABLE RECORD PATCHES > RECORD   rows exchanged; patches are rows as in a table, each after its `@`
//!     table readback TABLE RECORD               the rows of a record, as a table with the same first line
//!     table differ TABLE TABLE                  the rows in which two tables differ; status 1 where there are some

#[path = "shared/text.rs"]
mod text;

use std::error::Error;
use std::fs;
use std::io::{Read, Write};

use tablegoose::{Image, Patch, Record, Trit};
use text::Header;

type Result<T> = std::result::Result<T, Box<dyn Error>>;

/// All rows of a table; those that it does not name are X.
fn all_rows(header: &Header, text: &str) -> Result<Vec<Trit>> {
    let mut all = vec![vec![Trit::X; header.width as usize]; header.depth as usize];
    for Patch { row, trits } in text::rows(text.lines().skip(1))? {
        if trits.len() != header.width as usize {
            return Err(format!("row {row} has not {} bits", header.width).into());
        }
        *all.get_mut(row as usize).ok_or(format!("row {row} is past the depth"))? = trits;
    }
    Ok(all.concat())
}

/// Chunk and row of a row number by the wrong order.
fn misplaced(header: &Header, row: u32) -> (u32, u32) {
    let soft = |bit: &u32| (header.plan.soft_addr_bits_mask >> bit) & 1 == 1;
    let others = || (0..32).filter(|bit| !soft(bit));
    let low = others().take(header.plan.hard_addr_bits as usize);
    let high = (0..32).filter(soft).chain(others().skip(header.plan.hard_addr_bits as usize));
    let gathered =
        |bits: &mut dyn Iterator<Item = u32>| bits.enumerate().fold(0, |sum, (at, bit)| sum | ((row >> bit) & 1).checked_shl(at as u32).unwrap_or(0));
    (gathered(&mut high.into_iter()), gathered(&mut low.into_iter()))
}

/// The image by the wrong order: columns go to memories as they should, but a row's chunk is another.
fn misplace(header: &Header, rows: &[Trit]) -> Result<Image> {
    let (layout, plan, width, unit) = (header.layout(), &header.plan, header.width as usize, header.plan.data_width_unit as usize);
    let mut trits = vec![Trit::X; layout.shape()?.image_size as usize];
    for (number, row) in rows.chunks(width).enumerate() {
        let (chunk, at) = misplaced(header, number as u32);
        for (entry, bit) in plan.data_swizzle.iter().enumerate() {
            let column = chunk as usize * plan.data_swizzle.len() + entry;
            let (memory, at_bit) = (column / unit, column % unit);
            let place = ((memory << plan.hard_addr_bits) + at as usize) * unit + at_bit;
            if let Some(bit) = bit {
                *trits.get_mut(place).ok_or("this table has a partial chunk")? = row[*bit as usize];
            }
        }
    }
    Ok(layout.image(&trits)?)
}

fn patched(header: &Header, record: Record, patches: &str) -> Result<Image> {
    let mut image = header.layout().image(&record.read()?.1)?;
    let patches = text::rows(patches.lines())?;
    for (patch, number) in patches.iter().zip(image.patch_each(&patches)?) {
        if let Err(refusal) = tablegoose::Refusal::check(number) {
            return Err(format!("row {}: {refusal}", patch.row).into());
        }
    }
    Ok(image)
}

fn readback(header: &Header, first: &str, record: Record) -> Result<()> {
    let image = header.layout().image(&record.read()?.1)?;
    println!("{first}");
    for row in 0..header.depth {
        println!("{}", text::word(&image.row(row)?));
    }
    Ok(())
}

/// A `$readmemb` file for each memory of a record.
fn memories(folder: &str, record: &Record) -> Result<()> {
    let (sizes, trits) = record.read()?;
    let (mut rest, unit) = (&trits[..], sizes.unit as usize);
    for number in 0..sizes.full + sizes.partial {
        let depth = if number < sizes.full { sizes.full_depth } else { sizes.partial_depth };
        let (memory, others) = rest.split_at(depth as usize * unit);
        let text: String = memory.chunks(unit).map(|row| text::word(row) + "\n").collect();
        fs::write(format!("{folder}/memory_{number}.mem"), text)?;
        rest = others;
    }
    Ok(())
}

/// The rows that differ, neighbours in one line, and how many there are.
fn differ(one: &(Header, String), other: &(Header, String)) -> Result<()> {
    let width = one.0.width as usize;
    let (a, b) = (all_rows(&one.0, &one.1)?, all_rows(&other.0, &other.1)?);
    if (a.len(), one.0.width) != (b.len(), other.0.width) {
        return Err("the tables have not the same sizes".into());
    }
    let rows: Vec<usize> = (0..one.0.depth as usize).filter(|row| a[row * width..(row + 1) * width] != b[row * width..(row + 1) * width]).collect();
    let show = |all: &[Trit], row: usize| text::word(&all[row * width..(row + 1) * width]);
    for run in rows.chunk_by(|before, after| before + 1 == *after) {
        let shown: Vec<String> = run.iter().map(|&row| format!("{} {}", show(&a, row), show(&b, row))).collect();
        let last = if run.len() > 1 { format!(" to {}", run[run.len() - 1]) } else { String::new() };
        println!("{}{last}: {}{}", run[0], shown[..run.len().min(4)].join(", "), if run.len() > 4 { ", .." } else { "" });
    }
    println!("{} of {} rows differ", rows.len(), one.0.depth);
    std::process::exit(i32::from(!rows.is_empty()))
}

fn read_table(text: &str) -> Result<(Header, String)> {
    Ok((Header::read(text)?, text.into()))
}

fn given_record() -> Result<Record> {
    let mut bytes = vec![];
    std::io::stdin().read_to_end(&mut bytes)?;
    Ok(Record(bytes))
}

fn main() -> Result<()> {
    let arguments: Vec<String> = std::env::args().skip(1).collect();
    let words: Vec<&str> = arguments.iter().map(String::as_str).collect();
    let (table, record) = (|name: &str| read_table(&fs::read_to_string(name)?), |name: &str| -> Result<Record> { Ok(Record(fs::read(name)?)) });
    let given = || std::io::read_to_string(std::io::stdin()).map_err(Box::from).and_then(|text| read_table(&text));
    let image = match words[..] {
        ["split"] => given().and_then(|(header, text)| Ok(header.layout().fill(&all_rows(&header, &text)?)?))?,
        ["misplace"] => given().and_then(|(header, text)| misplace(&header, &all_rows(&header, &text)?))?,
        ["patch", name, from, patches] => patched(&table(name)?.0, record(from)?, &fs::read_to_string(patches)?)?,
        ["list"] => {
            print!("{}", given_record()?.list());
            return Ok(());
        }
        ["memories", folder] => return memories(folder, &given_record()?),
        ["readback", name, from] => {
            let (header, text) = table(name)?;
            return readback(&header, text.lines().next().unwrap_or_default(), record(from)?);
        }
        ["differ", one, other] => return differ(&table(one)?, &table(other)?),
        _ => return Err("table split | misplace | list | memories | patch | readback | differ: see the head of its source".into()),
    };
    std::io::stdout().write_all(&image.record()?.0)?;
    Ok(())
}
