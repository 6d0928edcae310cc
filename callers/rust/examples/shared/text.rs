//! Tables as text. The first line has depth, width, entries, soft mask, hard bits and unit; entries are separated by commas, `-` names no bit, and `plain`
//! is each bit in order. Then the rows as in a `$readmemb` file: words of 0, 1, x and _, highest bit first, `//` comments, and `@` with a row number in hex.

use std::error::Error;

use tablegoose::{Layout, Patch, Swizzle, Trit};

type Result<T> = std::result::Result<T, Box<dyn Error>>;

/// The first line.
pub struct Header {
    pub depth: u32,
    pub width: u32,
    pub plan: Swizzle,
}

impl Header {
    pub fn read(text: &str) -> Result<Header> {
        let words: Vec<&str> = text.lines().next().unwrap_or_default().split_whitespace().collect();
        let [depth, width, entries, mask, hard, unit] = words[..] else { return Err("the first line has not six words".into()) };
        let width = width.parse()?;
        let entry = |word: &str| if word == "-" { Ok(None) } else { word.parse().map(Some) };
        let data_swizzle =
            if entries == "plain" { (0..width).map(Some).collect() } else { entries.split(',').map(entry).collect::<std::result::Result<_, _>>()? };
        let (soft_addr_bits_mask, hard_addr_bits, data_width_unit) = (mask.parse()?, hard.parse()?, unit.parse()?);
        let plan = Swizzle { data_swizzle, soft_addr_bits_mask, hard_addr_bits, data_width_unit, ..Swizzle::default() };
        let header = Header { depth: depth.parse()?, width, plan };
        // A layout that no accepted swizzle has is refused.
        header.layout().sizes()?;
        Ok(header)
    }

    pub fn layout(&self) -> Layout {
        Layout::new(self.depth, self.width, &self.plan)
    }
}

/// The rows that lines of words name, in order: numbered from 0, or from the last `@`.
#[allow(dead_code)]
pub fn rows<'a>(lines: impl Iterator<Item = &'a str>) -> Result<Vec<Patch>> {
    let (mut rows, mut next) = (vec![], 0);
    for word in lines.flat_map(|line| line.split("//").next().unwrap_or_default().split_whitespace()) {
        if let Some(number) = word.strip_prefix('@') {
            next = u32::from_str_radix(number, 16)?;
            continue;
        }
        rows.push(Patch { row: next, trits: trits(word)? });
        next += 1;
    }
    Ok(rows)
}

fn trits(word: &str) -> Result<Vec<Trit>> {
    let trit = |letter| match letter {
        '0' => Ok(Trit::Zero),
        '1' => Ok(Trit::One),
        'x' | 'X' => Ok(Trit::X),
        _ => Err(format!("{letter} is no trit").into()),
    };
    word.chars().rev().filter(|&letter| letter != '_').map(trit).collect()
}

/// A row's word.
#[allow(dead_code)]
pub fn word(trits: &[Trit]) -> String {
    trits.iter().rev().map(|trit| ["0", "1", "x"][trit.code() as usize]).collect()
}
