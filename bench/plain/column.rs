// A column moved to another width.
use super::{exactly, move_word, moved, EXACT, ROOM, STRAY, WIDTH};

// How many words were moved, and how many of these are exact.
pub struct Moved {
    pub moved: usize,
    pub exact: usize,
}

// Every word is tried before any result is written. A refusal comes with the position of the word that has it.
pub fn move_column(from: u32, to: u32, strict: bool, words: &[u64], results: &mut [u64]) -> Result<Moved, (u32, Option<usize>)> {
    if !(2..=64).contains(&from) || !(2..=64).contains(&to) {
        return Err((WIDTH, None));
    }
    if words.len() > results.len() {
        return Err((ROOM, None));
    }
    if strict {
        for (position, &word) in words.iter().enumerate() {
            move_word(from, to, true, word).map_err(|refusal| (refusal, Some(position)))?;
        }
    } else if from < 64 {
        if let Some(position) = words.iter().position(|&word| word >> from != 0) {
            return Err((STRAY, Some(position)));
        }
    }
    let mut exact = 0;
    for (result, &word) in results.iter_mut().zip(words) {
        // Every word was tried, so none is refused here.
        let written = moved(to, false, word << (64 - from)).unwrap_or(exactly(0));
        *result = written.word;
        exact += (written.saying == EXACT) as usize;
    }
    Ok(Moved { moved: words.len(), exact })
}
