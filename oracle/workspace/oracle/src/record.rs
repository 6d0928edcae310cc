//! The image record and the lister, written plainly from document 01.

use crate::limits::{HEAD, RECORD, TRIT_X};
use crate::refuse;
use crate::wire::Sizes;

/// Trits of the memories of these sizes, also where the sizes break the rules.
pub fn trits(sizes: &Sizes) -> u128 {
    let rows = |count: u32, depth: u32| count as u128 * depth as u128;
    sizes.unit as u128 * (rows(sizes.full, sizes.full_depth) + rows(sizes.partial, sizes.partial_depth))
}

/// Bytes of a record: six words, then two bit arrays.
pub fn length(sizes: &Sizes) -> u128 {
    HEAD as u128 + 2 * trits(sizes).div_ceil(8)
}

/// The sizes in a record's first bytes.
pub fn head(bytes: &[u32]) -> Sizes {
    let word = |index: usize| bytes[2 * index] + 256 * bytes[2 * index + 1];
    Sizes { unit: word(1), full: word(2), full_depth: word(3), partial: word(4), partial_depth: word(5) }
}

/// Writes the record of an accepted image.
pub fn write(sizes: &Sizes, image: &[u32]) -> Vec<u32> {
    let image = &image[..trits(sizes) as usize];
    let mut bytes = vec![];
    for word in [RECORD, sizes.unit, sizes.full, sizes.full_depth, sizes.partial, sizes.partial_depth] {
        bytes.extend([word % 256, word / 256]);
    }
    push_bits(&mut bytes, image, |trit| trit != TRIT_X);
    push_bits(&mut bytes, image, |trit| trit == 1);
    bytes
}

/// A bit array, lowest bit first; the last byte's spare bits are 0.
fn push_bits(bytes: &mut Vec<u32>, image: &[u32], bit: impl Fn(u32) -> bool) {
    for eight in image.chunks(8) {
        bytes.push(eight.iter().enumerate().map(|(place, &trit)| (bit(trit) as u32) << place).sum());
    }
}

/// The known and the value bits of a record, spare bits too.
pub fn bits(bytes: &[u32]) -> (Vec<u32>, Vec<u32>) {
    let arrays = &bytes[HEAD..];
    let (known, value) = arrays.split_at(arrays.len() / 2);
    let all = |array: &[u32]| array.iter().flat_map(|byte| (0..8).map(move |place| (byte >> place) & 1)).collect();
    (all(known), all(value))
}

/// The image of an accepted record.
pub fn read(bytes: &[u32]) -> Vec<u32> {
    let (known, value) = bits(bytes);
    let trit = |(known, value)| if known == 0 { TRIT_X } else { value };
    known.into_iter().zip(value).map(trit).take(trits(&head(bytes)) as usize).collect()
}

/// What the lister prints for what it reads.
pub fn list(bytes: &[u32]) -> String {
    let number = refuse::record(bytes);
    if number != 0 {
        return format!("refused {number}\n");
    }
    let (sizes, image) = (head(bytes), read(bytes));
    let mut text = format!("memories {} trits {}\n", sizes.full + sizes.partial, image.len());
    let mut rest = &image[..];
    for index in 0..sizes.full + sizes.partial {
        let depth = if index < sizes.full { sizes.full_depth } else { sizes.partial_depth };
        let (memory, after) = rest.split_at((depth * sizes.unit) as usize);
        rest = after;
        let known = memory.iter().filter(|&&trit| trit != TRIT_X).count();
        let ones = memory.iter().filter(|&&trit| trit == 1).count();
        let word = if ones == 0 { "blank" } else { "load" };
        text += &format!("{index} {depth} {known} {ones} {word}\n");
    }
    text
}
