//! The call that writes a study out again: from a lent network to its text in a lent area. A text has one
//! spelling, so what is written is what the reader took.

use crate::record::{self, NETWORK_WORDS};
use crate::refusal::Refusal;

/// The least area that is taken, however short this network's text is.
pub const TEXT_ROOM: usize = 8_192;

/// Answers 0 and the bytes of the text, whose lines stand in table order, sources among them; or 9 or 8, and 0.
/// The bytes behind the text stay as they were, and all of them where the call is refused.
pub fn write(network: &[i64], out: &mut [u8]) -> (u64, u64) {
    if out.len() < TEXT_ROOM || network.len() != NETWORK_WORDS {
        return (Refusal::Store.number(), 0);
    }
    let Some(study) = record::study_of_record(network) else {
        return (Refusal::Network.number(), 0);
    };
    let text = record::text_of(&study);
    out[..text.len()].copy_from_slice(text.as_bytes());
    (0, text.len() as u64)
}
