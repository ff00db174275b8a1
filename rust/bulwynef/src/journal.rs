//! The texts of a node's journal, by which it survives its process.
//!
//! The host owns the file, and keeps to the order of the steps in `bulwynef.h`, "nodes that survive". It makes the record of a call, and
//! writes and syncs the record's block. Then it makes the call of the node, with the same input and the same entropy. Last it sends what
//! the node answers. Only an acknowledgement is accepted before it is recorded.

use crate::handle::{done, text};
use crate::{ffi, Entropy, Key, Program, Refusal};

/// The open block of a text, which stands for it in a journal.
pub fn journal_block(bytes: &[u8]) -> Result<Vec<u8>, Refusal> {
    // SAFETY: the pointer has its length beside it, and the handle is closed.
    text(|to| unsafe { ffi::bulwynef_journal_block(bytes.as_ptr(), bytes.len(), to) })
}

/// The place of the closed gate in the bytes of a journal. What is behind the gate counts for nothing.
pub fn journal_end(journal: &[u8]) -> Result<usize, Refusal> {
    let mut end = 0;
    // SAFETY: the pointer has its length beside it, and `end` is written to alone.
    done(unsafe { ffi::bulwynef_journal_end(journal.as_ptr(), journal.len(), &mut end) })?;
    Ok(end)
}

/// The first text: how node `id` of the directory begins, by the key, with a log that begins with this number. It has the public key, and
/// no seed. [`crate::Node::rebuild`] tests whether the directory lists the node with this key.
pub fn node_beginning(directory: &[u8], id: u32, key: &Key, program: Program, first_seq: u64) -> Result<Vec<u8>, Refusal> {
    // SAFETY: each pointer has its length beside it, and the handle is closed.
    text(|to| unsafe {
        ffi::bulwynef_node_beginning(
            program as u8,
            directory.as_ptr(),
            directory.len(),
            id,
            first_seq,
            key.lms_type.code(),
            key.ots_type.code(),
            key.id.as_ptr(),
            key.id.len(),
            key.seed.as_ptr(),
            key.seed.len(),
            to,
        )
    })
}

/// The record of [`crate::Node::timer_with`].
pub fn record_timer(moment: u64, entropy: &Entropy) -> Result<Vec<u8>, Refusal> {
    // SAFETY: the pointer has its length beside it, and the handle is closed.
    text(|to| unsafe { ffi::bulwynef_record_timer(moment, entropy.as_ptr(), entropy.len(), to) })
}

/// The record of [`crate::Node::answer_with`], if that is given a message. An audit changes nothing of the node, and has no record.
pub fn record_answer(challenge: &[u8], entropy: &Entropy) -> Result<Vec<u8>, Refusal> {
    // SAFETY: each pointer has its length beside it, and the handle is closed.
    text(|to| unsafe { ffi::bulwynef_record_answer(challenge.as_ptr(), challenge.len(), entropy.as_ptr(), entropy.len(), to) })
}

/// The record of an acknowledgement that [`crate::Node::accept_ack`] accepted.
pub fn record_ack(ack: &[u8]) -> Result<Vec<u8>, Refusal> {
    // SAFETY: the pointer has its length beside it, and the handle is closed.
    text(|to| unsafe { ffi::bulwynef_record_ack(ack.as_ptr(), ack.len(), to) })
}

/// The record of [`crate::Node::checkpoint`].
pub fn record_checkpoint() -> Result<Vec<u8>, Refusal> {
    // SAFETY: the handle is closed.
    text(|to| unsafe { ffi::bulwynef_record_checkpoint(to) })
}

/// The record of [`crate::Node::next_key`]. It has the public key, and no seed.
pub fn record_next_key(key: &Key) -> Result<Vec<u8>, Refusal> {
    // SAFETY: each pointer has its length beside it, and the handle is closed.
    text(|to| unsafe {
        ffi::bulwynef_record_next_key(
            key.lms_type.code(),
            key.ots_type.code(),
            key.id.as_ptr(),
            key.id.len(),
            key.seed.as_ptr(),
            key.seed.len(),
            to,
        )
    })
}
