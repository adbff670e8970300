//! Notes compared with all that they hold.

use urthmoli::Note;
use urthmoli::words::NoteWords;

/// The words of the notes: places and bars count in them, which `==` of notes leaves out.
pub fn words_of(notes: &[Note]) -> Vec<NoteWords> {
    let words = notes.iter().map(Note::to_words);
    words.collect::<Option<_>>().unwrap()
}
