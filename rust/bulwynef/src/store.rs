//! Stores of evidence.

use crate::handle::{at_place, done, text, words, Handle};
use crate::{ffi, Indication, Program, Refusal};

/// A set of items of evidence under a directory, of nodes that follow a program. Stores of the same items export the same bytes.
pub struct Store {
    handle: Handle,
}

impl Store {
    /// A store without items.
    pub fn new(directory: &[u8], program: Program) -> Result<Store, Refusal> {
        let mut handle = Handle::closed();
        // SAFETY: the pointer has its length beside it, and the handle is closed.
        done(unsafe { ffi::bulwynef_store_open(program as u8, directory.as_ptr(), directory.len(), handle.get()?) })?;
        Ok(Store { handle })
    }

    /// Adds an item; whether it is new.
    pub fn take(&mut self, item: &[u8]) -> Result<bool, Refusal> {
        let mut is_new = 0;
        // SAFETY: the pointer has its length beside it, and the handle is this store's.
        done(unsafe { ffi::bulwynef_store_take(self.handle.get()?, item.as_ptr(), item.len(), &mut is_new) })?;
        Ok(is_new == 1)
    }

    /// Adds the items of an export, all or none; how many are new.
    pub fn import(&mut self, export: &[u8]) -> Result<u64, Refusal> {
        let mut added = 0;
        // SAFETY: as in `take`.
        done(unsafe { ffi::bulwynef_store_import(self.handle.get()?, export.as_ptr(), export.len(), &mut added) })?;
        Ok(added)
    }

    /// Adds the items of another store, all or none; how many are new.
    pub fn merge(&mut self, other: &mut Store) -> Result<u64, Refusal> {
        let mut added = 0;
        // SAFETY: two `&mut` are two handles.
        done(unsafe { ffi::bulwynef_store_merge(self.handle.get()?, other.handle.get()?, &mut added) })?;
        Ok(added)
    }

    /// Whether each item of the other store is here.
    pub fn includes(&mut self, other: &mut Store) -> Result<bool, Refusal> {
        let mut includes = 0;
        // SAFETY: two `&mut` are two handles.
        done(unsafe { ffi::bulwynef_store_includes(self.handle.get()?, other.handle.get()?, &mut includes) })?;
        Ok(includes == 1)
    }

    /// What the items say of a node.
    pub fn indication(&mut self, node: u32) -> Result<Indication, Refusal> {
        let mut said = 0;
        // SAFETY: the handle is this store's, and `said` is written to alone.
        done(unsafe { ffi::bulwynef_store_indication(self.handle.get()?, node, &mut said) })?;
        Ok(match said {
            1 => Indication::Trusted,
            2 => Indication::Suspected,
            _ => Indication::Exposed,
        })
    }

    /// A proof that convicts the node, where the items expose it.
    pub fn proof(&mut self, node: u32) -> Result<Option<Vec<u8>>, Refusal> {
        let at = self.handle.get()?;
        // SAFETY: the handle is this store's, and the text's is closed.
        match text(|to| unsafe { ffi::bulwynef_store_proof(at, node, to) }) {
            Err(Refusal::NotExposed) => Ok(None),
            found => found.map(Some),
        }
    }

    /// The challenge at a place, from 0, of those against a node that no item answers.
    pub fn challenge(&mut self, node: u32, place: usize) -> Result<Vec<u8>, Refusal> {
        let at = self.handle.get()?;
        // SAFETY: as in `proof`.
        text(|to| unsafe { ffi::bulwynef_store_challenge(at, node, place, to) })
    }

    /// The challenges against a node that no item answers, in the order of their bytes.
    pub fn challenges(&mut self, node: u32) -> Challenges<'_> {
        Challenges { store: self, node, place: 0 }
    }

    /// What the items say of each node, under which program and directory, and why, for a person to read.
    pub fn explain(&mut self) -> Result<String, Refusal> {
        let at = self.handle.get()?;
        // SAFETY: as in `proof`.
        words(|to| unsafe { ffi::bulwynef_store_explain(at, to) })
    }

    /// The one text of the items.
    pub fn export(&mut self) -> Result<Vec<u8>, Refusal> {
        let at = self.handle.get()?;
        // SAFETY: as in `proof`.
        text(|to| unsafe { ffi::bulwynef_store_export(at, to) })
    }

    /// The digest of each of the 256 buckets of items.
    pub fn outline(&mut self) -> Result<Vec<u8>, Refusal> {
        let at = self.handle.get()?;
        // SAFETY: as in `proof`.
        text(|to| unsafe { ffi::bulwynef_store_outline(at, to) })
    }

    /// The digests of all items.
    pub fn summary(&mut self) -> Result<Vec<u8>, Refusal> {
        let at = self.handle.get()?;
        // SAFETY: as in `proof`.
        text(|to| unsafe { ffi::bulwynef_store_summary(at, to) })
    }

    /// The digests of the items in the buckets that differ from another store's outline.
    pub fn short_summary(&mut self, outline: &[u8]) -> Result<Vec<u8>, Refusal> {
        let at = self.handle.get()?;
        // SAFETY: as in `proof`; the pointer has its length beside it.
        text(|to| unsafe { ffi::bulwynef_store_short_summary(at, outline.as_ptr(), outline.len(), to) })
    }

    /// The items that another store's summary does not name.
    pub fn pack(&mut self, summary: &[u8]) -> Result<Vec<u8>, Refusal> {
        let at = self.handle.get()?;
        // SAFETY: as in `proof`; the pointer has its length beside it.
        text(|to| unsafe { ffi::bulwynef_store_pack(at, summary.as_ptr(), summary.len(), to) })
    }

    /// Adds the items of a pack, all or none; how many are new.
    pub fn apply(&mut self, pack: &[u8]) -> Result<u64, Refusal> {
        let mut added = 0;
        // SAFETY: as in `take`.
        done(unsafe { ffi::bulwynef_store_apply(self.handle.get()?, pack.as_ptr(), pack.len(), &mut added) })?;
        Ok(added)
    }
}

/// The challenges against a node; the store is lent for as long.
pub struct Challenges<'a> {
    store: &'a mut Store,
    node: u32,
    place: usize,
}

impl Iterator for Challenges<'_> {
    type Item = Result<Vec<u8>, Refusal>;

    fn next(&mut self) -> Option<Self::Item> {
        let found = at_place(self.store.challenge(self.node, self.place))?;
        self.place += 1;
        Some(found)
    }
}
