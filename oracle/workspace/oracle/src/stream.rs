//! Cases and answers as streams of little-endian words: a first word, a length, so many words.

use std::io::{self, Read, Write};

/// The next case or answer, first word and length included; nothing at the end of the stream.
pub fn read_block(input: &mut impl Read) -> io::Result<Option<Vec<u32>>> {
    let mut head = [0; 8];
    match input.read(&mut head)? {
        0 => return Ok(None),
        some => input.read_exact(&mut head[some..])?,
    }
    let mut block = words(&head);
    let mut payload = vec![];
    let length = 4 * block[1] as u64;
    input.take(length).read_to_end(&mut payload)?;
    if payload.len() as u64 != length {
        return Err(io::ErrorKind::UnexpectedEof.into());
    }
    block.extend(words(&payload));
    Ok(Some(block))
}

fn words(bytes: &[u8]) -> Vec<u32> {
    let word = |four: &[u8]| u32::from_le_bytes(four.try_into().expect("four bytes"));
    bytes.chunks_exact(4).map(word).collect()
}

pub fn write_block(output: &mut impl Write, block: &[u32]) -> io::Result<()> {
    let bytes: Vec<u8> = block.iter().flat_map(|word| word.to_le_bytes()).collect();
    output.write_all(&bytes)
}
