//! Draws where each row and bit of a table goes, as SVG: `places < TABLE > SVG`, of which only the first line is read (depth, width, entries, soft mask, hard
//! bits, unit). Memories are blocks, their bits are columns, chunks have one colour each. A column says which bit it holds and of which rows.

#[path = "shared/text.rs"]
mod text;

use std::collections::BTreeMap;
use std::error::Error;
use std::io::Read;

use tablegoose::Shape;
use text::Header;

const COLUMN: u32 = 44;
const TALLEST: u32 = 384;
const LINE: u32 = 14;
const GAP: u32 = 56;
const MARGIN: u32 = 24;
const ACROSS: u32 = 1200;

/// What stands in a column of a memory: the entry's bit, the chunk, and which row of the table is in each row.
struct Column {
    chunk: u32,
    entry: usize,
    rows: BTreeMap<u32, u32>,
}

/// The columns by memory and bit, from the library's places.
fn columns(header: &Header) -> Result<BTreeMap<(u32, u32), Column>, tablegoose::Refusal> {
    let (layout, plan) = (header.layout(), &header.plan);
    let mut columns: BTreeMap<(u32, u32), Column> = BTreeMap::new();
    for row in 0..header.depth {
        for entry in 0..plan.data_swizzle.len() {
            let place = layout.place_of(row, entry)?;
            let (memory, bit) = (place.memory as u32, place.bit as u32);
            let chunk = (memory * plan.data_width_unit + bit) / plan.data_swizzle.len() as u32;
            let column = columns.entry((memory, bit)).or_insert(Column { chunk, entry, rows: BTreeMap::new() });
            column.rows.insert(place.row as u32, row);
        }
    }
    Ok(columns)
}

/// Rows in order as runs of equal steps: first, last and step.
fn runs(rows: &[u32]) -> Vec<(u32, u32, u32)> {
    let mut runs: Vec<(u32, u32, u32)> = vec![];
    for &row in rows {
        match runs.last_mut() {
            Some((_, last, step)) if row > *last && (*step == 0 || row - *last == *step) => {
                *step = row - *last;
                *last = row;
            }
            _ => runs.push((row, row, 0)),
        }
    }
    runs
}

fn run_text(&(first, last, step): &(u32, u32, u32)) -> String {
    match step {
        0 => format!("{first}"),
        1 => format!("{first} to {last}"),
        _ if first + step == last => format!("{first}, {last}"),
        _ => format!("{first}, {} .. {last}", first + step),
    }
}

/// A few runs whole; of many the first two and the last.
fn rows_text(rows: &[u32]) -> String {
    let runs: Vec<String> = runs(rows).iter().map(run_text).collect();
    match &runs[..] {
        [first, second, .., last] if runs.len() > 4 => format!("{first}; {second}; ..; {last}"),
        _ => runs.join("; "),
    }
}

/// Colours that stay apart: the hue goes around by the golden angle.
fn colour(chunk: u32) -> String {
    format!("hsl({}, 62%, {}%)", (chunk * 137 + 205) % 360, [74, 64, 82][(chunk / 8 % 3) as usize])
}

/// The picture as it grows.
struct Picture {
    body: String,
    x: u32,
    y: u32,
    widest: u32,
}

impl Picture {
    fn text(&mut self, x: u32, y: u32, class: &str, text: &str) {
        self.body += &format!("<text x=\"{x}\" y=\"{y}\" class=\"{class}\">{text}</text>\n");
    }

    fn block(&mut self, x: u32, y: u32, width: u32, height: u32, fill: &str, title: &str) {
        let place = format!("x=\"{x}\" y=\"{y}\" width=\"{width}\" height=\"{height}\"");
        self.body += &format!("<rect {place} fill=\"{fill}\" stroke=\"#333\"><title>{title}</title></rect>\n");
    }

    /// A line of text upright in the middle of a block.
    fn upright(&mut self, x: u32, y: u32, text: &str) {
        self.body += &format!("<text transform=\"translate({x} {y}) rotate(-90)\" class=\"in\">{text}</text>\n");
    }

    /// The next memory to the right, or below where there is no room.
    fn memory(&mut self, drawing: &Drawing, number: u32) {
        let (unit, depth, tall) = (drawing.header.plan.data_width_unit, drawing.depth(number), drawing.tall(number));
        if self.x > MARGIN + 16 && self.x + unit * COLUMN > ACROSS {
            self.x = MARGIN + 16;
            self.y += drawing.tallest() + 70;
        }
        let (x, y) = (self.x, self.y + 48);
        self.text(x, self.y + 12, "name", &format!("memory {number}"));
        self.text(x, self.y + 27, "small", &format!("{depth} × {unit}"));
        self.text(x - 4, y + 11, "row", "0");
        if depth > 1 {
            self.text(x - 4, y + tall - 3, "row", &format!("{}", depth - 1));
        }
        for bit in 0..unit {
            self.column(drawing, number, bit, x + bit * COLUMN, y);
        }
        self.x += unit * COLUMN + GAP;
        self.widest = self.widest.max(self.x);
    }

    /// A column: white where nothing reaches it, hatched where its entry holds no bit, else in the chunk's colour.
    fn column(&mut self, drawing: &Drawing, number: u32, bit: u32, x: u32, y: u32) {
        let tall = drawing.tall(number);
        self.block(x, y, COLUMN, tall, "#fff", "X: nothing reaches it");
        let Some(column) = drawing.columns.get(&(number, bit)) else { return };
        let rows: Vec<u32> = column.rows.values().copied().collect();
        let filled = (tall * rows.len() as u32 / drawing.depth(number)).max(1);
        let held = drawing.header.plan.data_swizzle[column.entry].map(|bit| format!("bit {bit}"));
        let all: Vec<String> = runs(&rows).iter().map(run_text).collect();
        let title = format!("chunk {}, {}, rows {}", column.chunk, held.as_deref().unwrap_or("no bit: X"), all.join("; "));
        let fill = if held.is_some() { colour(column.chunk) } else { "url(#none)".into() };
        self.block(x, y, COLUMN, filled, &fill, &title);
        let middle = x + COLUMN / 2;
        self.text(middle, y - 4, "in", held.as_deref().unwrap_or("X"));
        if held.is_none() {
            return;
        }
        if !drawing.by_row() {
            self.upright(middle + 4, y + filled / 2, &format!("rows {}", rows_text(&rows)));
            return;
        }
        for (&at, row) in &column.rows {
            self.text(middle, y + at * LINE + 11, "in", &format!("{row}"));
        }
    }
}

/// What is drawn: where a memory is not deep each row has its line.
struct Drawing<'a> {
    header: &'a Header,
    shape: Shape,
    columns: BTreeMap<(u32, u32), Column>,
}

impl Drawing<'_> {
    fn depth(&self, number: u32) -> u32 {
        let full = u64::from(number) < self.shape.full_mems;
        (if full { self.shape.full_depth } else { self.shape.part_depth }) as u32
    }

    fn deepest(&self) -> u32 {
        self.depth(0)
    }

    fn by_row(&self) -> bool {
        self.deepest() * LINE <= TALLEST
    }

    fn tall(&self, number: u32) -> u32 {
        if self.by_row() { self.depth(number) * LINE } else { (self.depth(number) * TALLEST / self.deepest()).max(LINE) }
    }

    fn tallest(&self) -> u32 {
        self.tall(0)
    }
}

fn legend(picture: &mut Picture, columns: &BTreeMap<(u32, u32), Column>) {
    let mut chunks: BTreeMap<u32, Vec<u32>> = BTreeMap::new();
    for column in columns.values() {
        chunks.entry(column.chunk).or_insert_with(|| column.rows.values().copied().collect());
    }
    for (&chunk, rows) in chunks.iter().take(32) {
        picture.block(MARGIN, picture.y, 18, 12, &colour(chunk), &format!("chunk {chunk}"));
        picture.text(MARGIN + 26, picture.y + 11, "small", &format!("chunk {chunk}: rows {}", rows_text(rows)));
        picture.y += 18;
    }
    if chunks.len() > 32 {
        picture.text(MARGIN + 26, picture.y + 11, "small", &format!("and {} chunks more", chunks.len() - 32));
        picture.y += 18;
    }
}

const STYLE: &str = "text{font-family:sans-serif;font-size:12px}.title{font-size:15px}.name{font-weight:bold}\
    .row{text-anchor:end;font-size:10px}.in{text-anchor:middle}";
const HATCHED: &str =
    "<pattern id=\"none\" width=\"6\" height=\"6\" patternUnits=\"userSpaceOnUse\"><path d=\"M0 6L6 0\" stroke=\"#bbb\"/></pattern>";

fn draw(drawing: &Drawing) -> String {
    let mut picture = Picture { body: String::new(), x: MARGIN + 16, y: MARGIN, widest: 600 };
    let (header, plan, memories) = (drawing.header, &drawing.header.plan, drawing.shape.all_mems);
    let title = format!(
        "{} rows of {} bits; soft mask {:#x}, hard bits {}, unit {}: {memories} memories",
        header.depth, header.width, plan.soft_addr_bits_mask, plan.hard_addr_bits, plan.data_width_unit
    );
    picture.text(MARGIN, MARGIN, "title", &title);
    picture.y += 20;
    legend(&mut picture, &drawing.columns);
    picture.y += 10;
    (0..memories as u32).for_each(|number| picture.memory(drawing, number));
    let (width, height) = (picture.widest, picture.y + drawing.tallest() + 48 + MARGIN);
    let head = format!("<svg xmlns=\"http://www.w3.org/2000/svg\" width=\"{width}\" height=\"{height}\" viewBox=\"0 0 {width} {height}\">");
    let paper = "<rect width=\"100%\" height=\"100%\" fill=\"#fff\"/>";
    format!("{head}\n<style>{STYLE}</style>\n<defs>{HATCHED}</defs>\n{paper}\n{}</svg>\n", picture.body)
}

fn main() -> Result<(), Box<dyn Error>> {
    let mut text = String::new();
    std::io::stdin().read_to_string(&mut text)?;
    let header = Header::read(&text)?;
    print!("{}", draw(&Drawing { header: &header, shape: header.layout().shape()?, columns: columns(&header)? }));
    Ok(())
}
