// Reads operations, sixteen words each, and writes what the proved library answers, eleven words each.
use std::io::{self, Read, Write};

unsafe extern "C" {
    fn rattle_answer(words: *const u64, len: usize, word: u64) -> u64;
}

const OPERATION: usize = 16;
const ANSWER: u64 = 11;

fn main() -> io::Result<()> {
    let mut bytes = Vec::new();
    io::stdin().read_to_end(&mut bytes)?;
    let words: Vec<u64> = bytes
        .chunks_exact(8)
        .map(|word| u64::from_le_bytes(word.try_into().expect("eight bytes")))
        .collect();
    let mut answers = Vec::new();
    for operation in words.chunks_exact(OPERATION) {
        for word in 0..ANSWER {
            let found = unsafe { rattle_answer(operation.as_ptr(), OPERATION, word) };
            answers.extend(found.to_le_bytes());
        }
    }
    io::stdout().write_all(&answers)
}
