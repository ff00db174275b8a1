//! Proofs, items of evidence that are made of others, and the text of a directory.

use crate::handle::{at_place, done, text, words};
use crate::{ffi, Program, PublicKey, Refusal};

/// The node that the proof convicts before anybody who has the directory and the program.
pub fn check_proof(directory: &[u8], proof: &[u8], program: Program) -> Result<u32, Refusal> {
    let mut node = 0;
    // SAFETY: each pointer has its length beside it, and `node` is written to alone.
    done(unsafe { ffi::bulwynef_check_proof(program as u8, directory.as_ptr(), directory.len(), proof.as_ptr(), proof.len(), &mut node) })?;
    Ok(node)
}

/// Whom the proof convicts, under which program and directory, and why, for a person to read.
pub fn explain_proof(directory: &[u8], proof: &[u8], program: Program) -> Result<String, Refusal> {
    // SAFETY: each pointer has its length beside it, and the handle is closed.
    words(|at| unsafe { ffi::bulwynef_explain_proof(program as u8, directory.as_ptr(), directory.len(), proof.as_ptr(), proof.len(), at) })
}

/// The statement at a place, from 0, of those that an item has signatures of. Nothing is verified of items here: a store verifies what it
/// takes.
pub fn statement_of(item: &[u8], place: usize) -> Result<Vec<u8>, Refusal> {
    // SAFETY: the pointer has its length beside it, and the handle is closed.
    text(|at| unsafe { ffi::bulwynef_statement_of(item.as_ptr(), item.len(), place, at) })
}

/// The statements that an item has signatures of, in their order.
pub fn statements_of(item: &[u8]) -> Statements<'_> {
    Statements { item, place: 0 }
}

/// The statements of an item.
pub struct Statements<'a> {
    item: &'a [u8],
    place: usize,
}

impl Iterator for Statements<'_> {
    type Item = Result<Vec<u8>, Refusal>;

    fn next(&mut self) -> Option<Self::Item> {
        let found = at_place(statement_of(self.item, self.place))?;
        self.place += 1;
        Some(found)
    }
}

/// The demand for a node's log up to the entry of its statement `last`, from that of its statement `first` or from the beginning.
pub fn audit_challenge(first: Option<&[u8]>, last: &[u8]) -> Result<Vec<u8>, Refusal> {
    let first = first.unwrap_or(&[]);
    // SAFETY: each pointer has its length beside it, and the handle is closed.
    text(|at| unsafe { ffi::bulwynef_audit_challenge(first.as_ptr(), first.len(), last.as_ptr(), last.len(), at) })
}

/// The demand to acknowledge the message of an item, a message or an acknowledgement.
pub fn send_challenge(message: &[u8]) -> Result<Vec<u8>, Refusal> {
    // SAFETY: the pointer has its length beside it, and the handle is closed.
    text(|at| unsafe { ffi::bulwynef_send_challenge(message.as_ptr(), message.len(), at) })
}

/// The text of a directory of nodes, in this order, each with its public keys, one to eight. Whoever reads it refuses others.
pub fn directory(nodes: &[(u32, &[PublicKey])]) -> Vec<u8> {
    let mut text = b"PRDIREC2".to_vec();
    text.extend((nodes.len() as u32).to_be_bytes());
    for (node, keys) in nodes {
        text.extend(node.to_be_bytes());
        text.push(u8::try_from(keys.len()).unwrap_or(u8::MAX));
        text.extend(keys.iter().flatten());
    }
    text
}
