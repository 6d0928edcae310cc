//! Answers the cases of standard input, in order, on standard output; a case that is not whole, or of an op that is not known, by the words 0xFFFFFFFF
//! and 0. With TABLEGOOSE_GUARD=1 each lent buffer ends at a page that cannot be touched.

use std::io::{self, BufReader, BufWriter, Read, Write};

/// So many words; fewer where the input ends.
fn read_words(input: &mut impl Read, count: usize) -> io::Result<Vec<u32>> {
    let mut bytes = vec![];
    input.take(4 * count as u64).read_to_end(&mut bytes)?;
    Ok(bytes.chunks_exact(4).map(|b| u32::from_le_bytes([b[0], b[1], b[2], b[3]])).collect())
}

fn main() -> io::Result<()> {
    let mut input = BufReader::new(io::stdin().lock());
    let mut output = BufWriter::new(io::stdout().lock());
    for number in 0.. {
        let mut case = read_words(&mut input, 2)?;
        if case.is_empty() {
            break;
        }
        if let &[op, length] = &case[..] {
            answer::begin(number, op);
            case.extend(read_words(&mut input, length as usize)?);
        }
        let bytes: Vec<u8> = answer::answer(&case).iter().flat_map(|word| word.to_le_bytes()).collect();
        output.write_all(&bytes)?;
    }
    output.flush()
}
