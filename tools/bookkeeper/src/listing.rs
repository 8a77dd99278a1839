//! The marks of a book by lines of numbers, as the program `marker` prints them.

use crate::marks::Marking;

/// The count of rules; the number, the mark and the margin of each; the score; the verdict.
pub fn text(marking: &Marking) -> String {
    let mut text = format!("rules {}\n", marking.marked.rules);
    for (number, (mark, margin)) in marking.marks.iter().zip(&marking.margins).enumerate() {
        text += &format!("{number} {mark} {margin}\n");
    }
    text + &format!("score {}\n{}\n", marking.marked.score, marking.verdict())
}
