//! Writing a value as a word, and moving a word to another width, with what is said beside the word; written from the
//! papers alone.

pub mod answers;
pub mod around;
pub mod moving;
pub mod nearest;
pub mod offers;
pub mod sayings;
