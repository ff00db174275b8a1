//! Bulwynef for Rust, over `bulwynef.h`: stores of evidence, nodes that answer for what they did, and proofs that a third party checks.
//!
//! The library behind it is proved; this crate hands bytes to it and back. What the C interface asks of its caller is kept by types: a
//! handle is closed by `Drop` and never copied, each call on one takes `&mut self`, a [`Store`] and a [`Node`] may go to another thread,
//! and keys and entropy have their lengths. A child of fork is refused its parent's handles as [`Refusal::Closed`], and closes none of them.
//!
//! ```
//! use bulwynef::{check_proof, directory, Indication, Key, Node, Program, Store};
//!
//! let (first, second) = (Key::random()?, Key::random()?);
//! let listed = directory(&[(1, &[first.public()?]), (2, &[second.public()?])]);
//! let mut one = Node::new(&listed, 1, &first, Program::Tally)?;
//! let mut two = Node::new(&listed, 2, &second, Program::Tally)?;
//! let mut witness = Store::new(&listed, Program::Tally)?;
//! one.timer(5)?;
//! let seq = one.waiting().next().unwrap()?;
//! witness.take(&two.answer(&one.message(seq)?)?)?;
//! assert_eq!(witness.indication(2)?, Indication::Trusted);
//! assert_eq!(witness.proof(2)?, None);
//! # Ok::<(), bulwynef::Error>(())
//! ```
//!
//! Licensed under MIT or Apache-2.0, at your choice.

#![warn(missing_docs)]

mod error;
mod ffi;
mod handle;
mod items;
mod journal;
mod node;
mod refusal;
mod store;

pub use error::Error;
pub use items::{audit_challenge, check_proof, directory, explain_proof, send_challenge, statement_of, statements_of, Statements};
pub use journal::{journal_block, journal_end, node_beginning};
pub use journal::{record_ack, record_answer, record_checkpoint, record_next_key, record_timer};
pub use node::{fresh_entropy, Entropy, Key, LmsType, Node, OtsType, PublicKey, Waiting};
pub use refusal::Refusal;
pub use store::{Challenges, Store};

/// The programs that nodes follow.
#[derive(Clone, Copy, Debug, PartialEq, Eq, Hash)]
#[repr(u8)]
pub enum Program {
    /// A total, and numbers that add to it.
    Tally = 1,
    /// A count of messages that are sent on.
    Relay = 2,
    /// A relay of mails.
    Mailbox = 3,
}

/// What a store says of a node.
#[derive(Clone, Copy, Debug, PartialEq, Eq, Hash)]
pub enum Indication {
    /// Nothing speaks against it.
    Trusted,
    /// A challenge to it has no answer here.
    Suspected,
    /// It is at fault, and a proof shows that.
    Exposed,
}
