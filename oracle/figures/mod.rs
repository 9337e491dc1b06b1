//! The figures: questions and their answers (docs/FIGURES.md); written from the papers alone.

mod answers;
mod questions;

/// All lines.
pub fn lines() -> Vec<String> {
    questions::QUESTIONS.map(answers::line_of).to_vec()
}
