//! Rules typed as text: every symbol, every place at which a text can break, the limits on bytes and words, and their order; result
//! slices that are long enough, of exactly the length, one less, of 10 words, and of none.
use crate::case::{Case, PLAIN_ROOM};
use reference::limits::Limits;
use reference::steps::text_words;
use reference::texts::texts;

pub fn cases() -> Vec<Case> {
    let mut cases = Vec::new();
    for (label, text) in texts() {
        let rooms = match text_words(&text, Limits::DESK) {
            Ok(words) => vec![PLAIN_ROOM, 1 + words.len(), words.len(), 10],
            Err(_) if text.len() > 300 => vec![10],
            Err(_) => vec![PLAIN_ROOM, 10],
        };
        cases.extend(rooms.into_iter().map(|room| Case::of_text(&format!("text {label}, room {room}"), &text, room)));
    }
    cases.push(Case::of_text("empty text, room 0", b"", 0));
    cases.push(Case::of_text("1 word, room 0", b"p1", 0));
    cases.push(Case::of_text("64 words, room 65", format!("{}p1", "X".repeat(63)).as_bytes(), 65));
    cases
}
