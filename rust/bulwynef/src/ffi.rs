//! The calls of `bulwynef.h`. `tests/header.rs` holds them to it.

use std::os::raw::c_void;

#[repr(C)]
pub struct RawHandle {
    pub at: *mut c_void,
    pub is_open: bool,
}

type Text = *const u8;
type H = *mut RawHandle;

extern "C" {
    pub fn bulwynef_check_proof(program: u8, directory: Text, directory_len: usize, proof: Text, proof_len: usize, node: *mut u32) -> u8;
    pub fn bulwynef_explain_proof(program: u8, directory: Text, directory_len: usize, proof: Text, proof_len: usize, text: H) -> u8;
    pub fn bulwynef_public_key(
        lms_type: u32,
        ots_type: u32,
        key_id: Text,
        key_id_len: usize,
        seed: Text,
        seed_len: usize,
        key: *mut u8,
        key_len: usize,
    ) -> u8;
    pub fn bulwynef_statement_of(item: Text, item_len: usize, place: usize, text: H) -> u8;
    pub fn bulwynef_audit_challenge(first: Text, first_len: usize, last: Text, last_len: usize, text: H) -> u8;
    pub fn bulwynef_send_challenge(message: Text, message_len: usize, text: H) -> u8;
    pub fn bulwynef_store_open(program: u8, directory: Text, directory_len: usize, store: H) -> u8;
    pub fn bulwynef_store_take(store: H, item: Text, item_len: usize, is_new: *mut u8) -> u8;
    pub fn bulwynef_store_import(store: H, text: Text, text_len: usize, added: *mut u64) -> u8;
    pub fn bulwynef_store_merge(store: H, other: H, added: *mut u64) -> u8;
    pub fn bulwynef_store_includes(store: H, other: H, includes: *mut u8) -> u8;
    pub fn bulwynef_store_indication(store: H, node: u32, indication: *mut u8) -> u8;
    pub fn bulwynef_store_proof(store: H, node: u32, text: H) -> u8;
    pub fn bulwynef_store_challenge(store: H, node: u32, place: usize, text: H) -> u8;
    pub fn bulwynef_store_explain(store: H, text: H) -> u8;
    pub fn bulwynef_store_export(store: H, text: H) -> u8;
    pub fn bulwynef_store_outline(store: H, text: H) -> u8;
    pub fn bulwynef_store_summary(store: H, text: H) -> u8;
    pub fn bulwynef_store_short_summary(store: H, outline: Text, outline_len: usize, text: H) -> u8;
    pub fn bulwynef_store_pack(store: H, summary: Text, summary_len: usize, text: H) -> u8;
    pub fn bulwynef_store_apply(store: H, pack: Text, pack_len: usize, added: *mut u64) -> u8;
    pub fn bulwynef_node_new(
        program: u8,
        directory: Text,
        directory_len: usize,
        id: u32,
        first_seq: u64,
        lms_type: u32,
        ots_type: u32,
        key_id: Text,
        key_id_len: usize,
        seed: Text,
        seed_len: usize,
        node: H,
    ) -> u8;
    pub fn bulwynef_node_timer(node: H, moment: u64, entropy: Text, entropy_len: usize) -> u8;
    pub fn bulwynef_node_waiting(node: H, place: usize, seq: *mut u64) -> u8;
    pub fn bulwynef_node_message(node: H, seq: u64, text: H) -> u8;
    pub fn bulwynef_node_answer(node: H, challenge: Text, challenge_len: usize, entropy: Text, entropy_len: usize, text: H) -> u8;
    pub fn bulwynef_node_history(node: H, text: H) -> u8;
    pub fn bulwynef_node_accept_ack(node: H, ack: Text, ack_len: usize) -> u8;
    pub fn bulwynef_node_checkpoint(node: H, seq: *mut u64) -> u8;
    pub fn bulwynef_node_remaining(node: H, leaves: *mut u32) -> u8;
    pub fn bulwynef_node_next_key(
        node: H,
        lms_type: u32,
        ots_type: u32,
        key_id: Text,
        key_id_len: usize,
        seed: Text,
        seed_len: usize,
    ) -> u8;
    pub fn bulwynef_journal_block(text: Text, text_len: usize, block: H) -> u8;
    pub fn bulwynef_journal_end(journal: Text, journal_len: usize, end: *mut usize) -> u8;
    pub fn bulwynef_node_beginning(
        program: u8,
        directory: Text,
        directory_len: usize,
        id: u32,
        first_seq: u64,
        lms_type: u32,
        ots_type: u32,
        key_id: Text,
        key_id_len: usize,
        seed: Text,
        seed_len: usize,
        text: H,
    ) -> u8;
    pub fn bulwynef_record_timer(moment: u64, entropy: Text, entropy_len: usize, text: H) -> u8;
    pub fn bulwynef_record_answer(challenge: Text, challenge_len: usize, entropy: Text, entropy_len: usize, text: H) -> u8;
    pub fn bulwynef_record_ack(ack: Text, ack_len: usize, text: H) -> u8;
    pub fn bulwynef_record_checkpoint(text: H) -> u8;
    pub fn bulwynef_record_next_key(
        lms_type: u32,
        ots_type: u32,
        key_id: Text,
        key_id_len: usize,
        seed: Text,
        seed_len: usize,
        text: H,
    ) -> u8;
    pub fn bulwynef_node_rebuild(
        program: u8,
        directory: Text,
        directory_len: usize,
        secrets: Text,
        secrets_len: usize,
        journal: Text,
        journal_len: usize,
        node: H,
    ) -> u8;
    pub fn bulwynef_node_knows(node: H, statement: Text, statement_len: usize, knows: *mut u8) -> u8;
    pub fn bulwynef_text_len(text: H) -> usize;
    pub fn bulwynef_text_copy(text: H, out: *mut u8, out_len: usize) -> u8;
    pub fn bulwynef_close(handle: H);
    pub fn pthread_atfork(prepare: Option<extern "C" fn()>, parent: Option<extern "C" fn()>, child: Option<extern "C" fn()>) -> i32;
}
