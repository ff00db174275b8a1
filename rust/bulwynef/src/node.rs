//! Nodes and their keys.

use crate::handle::{at_place, done, text, Handle};
use crate::{ffi, Error, Program, Refusal};
use std::fs::File;
use std::io::Read;

/// Random bytes, fresh for each call that signs.
pub type Entropy = [u8; 32];
/// A public key, as a directory has it.
pub type PublicKey = [u8; 56];

/// The type of a key's tree (RFC 8554).
#[derive(Clone, Copy, Debug, PartialEq, Eq, Hash)]
#[non_exhaustive]
pub enum LmsType {
    /// It signs 32 statements.
    H5,
    /// It signs 1,024.
    H10,
    /// Another typecode.
    Other(u32),
}

impl LmsType {
    pub(crate) fn code(self) -> u32 {
        match self {
            LmsType::H5 => 5,
            LmsType::H10 => 6,
            LmsType::Other(code) => code,
        }
    }
}

/// The type of a key's one-time signatures (RFC 8554).
#[derive(Clone, Copy, Debug, PartialEq, Eq, Hash)]
#[non_exhaustive]
pub enum OtsType {
    /// Chains for one bit.
    W1,
    /// For two.
    W2,
    /// For four.
    W4,
    /// For eight, the shortest signatures.
    W8,
    /// Another typecode.
    Other(u32),
}

impl OtsType {
    pub(crate) fn code(self) -> u32 {
        match self {
            OtsType::W1 => 1,
            OtsType::W2 => 2,
            OtsType::W4 => 3,
            OtsType::W8 => 4,
            OtsType::Other(code) => code,
        }
    }
}

fn random<const N: usize>() -> Result<[u8; N], Error> {
    let mut bytes = [0; N];
    File::open("/dev/urandom").and_then(|mut device| device.read_exact(&mut bytes)).map_err(Error::Random)?;
    Ok(bytes)
}

/// Random bytes for one call that signs, and for its record.
pub fn fresh_entropy() -> Result<Entropy, Error> {
    random()
}

/// A seed and what else makes a key. A seed signs in one node, in one process, once, so a key is not cloned.
pub struct Key {
    pub(crate) lms_type: LmsType,
    pub(crate) ots_type: OtsType,
    pub(crate) id: [u8; 16],
    pub(crate) seed: [u8; 32],
}

impl Key {
    /// A key of these bytes.
    pub fn new(lms_type: LmsType, ots_type: OtsType, id: [u8; 16], seed: [u8; 32]) -> Key {
        Key { lms_type, ots_type, id, seed }
    }

    /// A key of H5 and W8, of random bytes.
    pub fn random() -> Result<Key, Error> {
        Ok(Key::new(LmsType::H5, OtsType::W8, random()?, random()?))
    }

    /// The public key.
    pub fn public(&self) -> Result<PublicKey, Refusal> {
        let mut key = [0; 56];
        // SAFETY: each pointer has its length beside it.
        done(unsafe {
            ffi::bulwynef_public_key(
                self.lms_type.code(),
                self.ots_type.code(),
                self.id.as_ptr(),
                self.id.len(),
                self.seed.as_ptr(),
                self.seed.len(),
                key.as_mut_ptr(),
                key.len(),
            )
        })?;
        Ok(key)
    }
}

/// It leaves the seed out.
impl std::fmt::Debug for Key {
    fn fmt(&self, f: &mut std::fmt::Formatter<'_>) -> std::fmt::Result {
        f.debug_struct("Key")
            .field("lms_type", &self.lms_type)
            .field("ots_type", &self.ots_type)
            .field("id", &self.id)
            .finish_non_exhaustive()
    }
}

/// A node that follows its program, logs what comes and goes, and signs it. It ends with its process, unless a journal has each call that
/// changed it: then [`Node::rebuild`] gives it back. If a call is refused as `Memory` and its record is written, drop the node and rebuild
/// it.
pub struct Node {
    handle: Handle,
}

impl Node {
    /// Node `id` of the directory, which signs by the key; its log begins with number 1.
    pub fn new(directory: &[u8], id: u32, key: &Key, program: Program) -> Result<Node, Refusal> {
        Node::from_seq(directory, id, key, program, 1)
    }

    /// The same; its log begins with this number.
    pub fn from_seq(directory: &[u8], id: u32, key: &Key, program: Program, first_seq: u64) -> Result<Node, Refusal> {
        let mut handle = Handle::closed();
        // SAFETY: each pointer has its length beside it, and the handle is closed.
        done(unsafe {
            ffi::bulwynef_node_new(
                program as u8,
                directory.as_ptr(),
                directory.len(),
                id,
                first_seq,
                key.lms_type.code(),
                key.ots_type.code(),
                key.id.as_ptr(),
                key.id.len(),
                key.seed.as_ptr(),
                key.seed.len(),
                handle.get()?,
            )
        })?;
        Ok(Node { handle })
    }

    /// The node of a journal's bytes: it began as the first text says, and did what the further ones record. Each key that the journal
    /// names is among these.
    pub fn rebuild(directory: &[u8], keys: &[&Key], journal: &[u8], program: Program) -> Result<Node, Refusal> {
        let secrets: Vec<u8> = keys.iter().flat_map(|key| key.id.iter().chain(&key.seed)).copied().collect();
        let mut handle = Handle::closed();
        // SAFETY: each pointer has its length beside it, and the handle is closed.
        done(unsafe {
            ffi::bulwynef_node_rebuild(
                program as u8,
                directory.as_ptr(),
                directory.len(),
                secrets.as_ptr(),
                secrets.len(),
                journal.as_ptr(),
                journal.len(),
                handle.get()?,
            )
        })?;
        Ok(Node { handle })
    }

    /// The timer ticks; what the node sends waits.
    pub fn timer(&mut self, moment: u64) -> Result<(), Error> {
        Ok(self.timer_with(moment, &random()?)?)
    }

    /// The same with this entropy, which no other call may have.
    pub fn timer_with(&mut self, moment: u64, entropy: &Entropy) -> Result<(), Refusal> {
        // SAFETY: the pointer has its length beside it, and the handle is this node's.
        done(unsafe { ffi::bulwynef_node_timer(self.handle.get()?, moment, entropy.as_ptr(), entropy.len()) })
    }

    /// The numbers of the messages that wait for their acknowledgements.
    pub fn waiting(&mut self) -> Waiting<'_> {
        Waiting { node: self, place: 0 }
    }

    fn waiting_at(&mut self, place: usize) -> Result<u64, Refusal> {
        let mut seq = 0;
        // SAFETY: the handle is this node's, and `seq` is written to alone.
        done(unsafe { ffi::bulwynef_node_waiting(self.handle.get()?, place, &mut seq) })?;
        Ok(seq)
    }

    /// A message that was sent, as a challenge to acknowledge it.
    pub fn message(&mut self, seq: u64) -> Result<Vec<u8>, Refusal> {
        let at = self.handle.get()?;
        // SAFETY: the handle is this node's, and the text's is closed.
        text(|to| unsafe { ffi::bulwynef_node_message(at, seq, to) })
    }

    /// To a message its acknowledgement, to an audit a segment of the log; what was answered before, as it was. After `Memory` the same
    /// call again answers it.
    pub fn answer(&mut self, challenge: &[u8]) -> Result<Vec<u8>, Error> {
        Ok(self.answer_with(challenge, &random()?)?)
    }

    /// The same with this entropy, which no other call may have.
    pub fn answer_with(&mut self, challenge: &[u8], entropy: &Entropy) -> Result<Vec<u8>, Refusal> {
        let at = self.handle.get()?;
        // SAFETY: as in `message`; each pointer has its length beside it.
        text(|to| unsafe { ffi::bulwynef_node_answer(at, challenge.as_ptr(), challenge.len(), entropy.as_ptr(), entropy.len(), to) })
    }

    /// The entries of the log, each as a segment has it. Nothing is signed for it.
    pub fn history(&mut self) -> Result<Vec<u8>, Refusal> {
        let at = self.handle.get()?;
        // SAFETY: as in `message`.
        text(|to| unsafe { ffi::bulwynef_node_history(at, to) })
    }

    /// Accepts an acknowledgement of just a message that was sent: it waits no longer.
    pub fn accept_ack(&mut self, ack: &[u8]) -> Result<(), Refusal> {
        // SAFETY: as in `timer_with`.
        done(unsafe { ffi::bulwynef_node_accept_ack(self.handle.get()?, ack.as_ptr(), ack.len()) })
    }

    /// Logs a checkpoint, from which an audit can begin; its number.
    pub fn checkpoint(&mut self) -> Result<u64, Refusal> {
        let mut seq = 0;
        // SAFETY: as in `waiting_at`.
        done(unsafe { ffi::bulwynef_node_checkpoint(self.handle.get()?, &mut seq) })?;
        Ok(seq)
    }

    /// How many statements the key in use still signs.
    pub fn remaining(&mut self) -> Result<u32, Refusal> {
        let mut leaves = 0;
        // SAFETY: as in `waiting_at`.
        done(unsafe { ffi::bulwynef_node_remaining(self.handle.get()?, &mut leaves) })?;
        Ok(leaves)
    }

    /// Signs by another of the node's keys from now on.
    pub fn next_key(&mut self, key: &Key) -> Result<(), Refusal> {
        // SAFETY: each pointer has its length beside it, and the handle is this node's.
        done(unsafe {
            ffi::bulwynef_node_next_key(
                self.handle.get()?,
                key.lms_type.code(),
                key.ots_type.code(),
                key.id.as_ptr(),
                key.id.len(),
                key.seed.as_ptr(),
                key.seed.len(),
            )
        })
    }

    /// Whether a statement is another node's, or one that this node signed. If a witness holds one that the node does not know, the journal
    /// is an old copy, and none of the node's keys may ever sign again. Nothing is verified of the statement here.
    pub fn knows(&mut self, statement: &[u8]) -> Result<bool, Refusal> {
        let mut knows = 0;
        // SAFETY: the pointer has its length beside it, the handle is this node's, and `knows` is written to alone.
        done(unsafe { ffi::bulwynef_node_knows(self.handle.get()?, statement.as_ptr(), statement.len(), &mut knows) })?;
        Ok(knows == 1)
    }
}

/// The numbers of messages that wait; the node is lent for as long.
pub struct Waiting<'a> {
    node: &'a mut Node,
    place: usize,
}

impl Iterator for Waiting<'_> {
    type Item = Result<u64, Refusal>;

    fn next(&mut self) -> Option<Self::Item> {
        let found = at_place(self.node.waiting_at(self.place))?;
        self.place += 1;
        Some(found)
    }
}
