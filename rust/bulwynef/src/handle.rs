//! Handles, and what is answered behind them.

use crate::ffi::{self, RawHandle};
use crate::Refusal;
use std::sync::atomic::{AtomicUsize, Ordering};
use std::sync::Once;

/// How often this process and those that it was forked off were forked off.
static FORKS: AtomicUsize = AtomicUsize::new(0);
static COUNTED: Once = Once::new();

extern "C" fn has_forked() {
    FORKS.fetch_add(1, Ordering::SeqCst);
}

/// This process, and none that it was forked off or forks off.
#[derive(Clone, Copy, PartialEq, Eq)]
struct Process {
    id: u32,
    forks: usize,
}

impl Process {
    fn now() -> Process {
        // SAFETY: the function that is handed over only adds to a counter, which a child may do.
        COUNTED.call_once(|| unsafe {
            ffi::pthread_atfork(None, None, Some(has_forked));
        });
        Process { id: std::process::id(), forks: FORKS.load(Ordering::SeqCst) }
    }
}

/// The answer of a call, as a result.
pub(crate) fn done(answer: u8) -> Result<(), Refusal> {
    match answer {
        0 => Ok(()),
        number => Err(Refusal::from_number(number)),
    }
}

/// A handle, which is closed with it, in the process that opened it.
pub(crate) struct Handle {
    raw: RawHandle,
    process: Process,
}

// SAFETY: what lies behind a handle is its alone, in memory of malloc, and every call on it takes `&mut`. So it may go to another thread.
unsafe impl Send for Handle {}

impl Handle {
    pub(crate) fn closed() -> Handle {
        Handle { raw: RawHandle { at: std::ptr::null_mut(), is_open: false }, process: Process::now() }
    }

    /// The handle for a call, in the process that opened it.
    pub(crate) fn get(&mut self) -> Result<*mut RawHandle, Refusal> {
        if self.process == Process::now() {
            Ok(&mut self.raw)
        } else {
            Err(Refusal::Closed)
        }
    }
}

impl Drop for Handle {
    fn drop(&mut self) {
        if let Ok(at) = self.get() {
            // SAFETY: the handle is its own, and is used no more.
            unsafe { ffi::bulwynef_close(at) }
        }
    }
}

/// What a call answers behind a handle at its end. The handle is closed as soon as the text is copied.
pub(crate) fn text(call: impl FnOnce(*mut RawHandle) -> u8) -> Result<Vec<u8>, Refusal> {
    let mut handle = Handle::closed();
    let at = handle.get()?;
    done(call(at))?;
    // SAFETY: the handle is open, and `bytes` has room for as many as it is told.
    unsafe {
        let len = ffi::bulwynef_text_len(at);
        let mut bytes: Vec<u8> = Vec::new();
        bytes.try_reserve_exact(len).map_err(|_| Refusal::Memory)?;
        done(ffi::bulwynef_text_copy(at, bytes.as_mut_ptr(), len))?;
        bytes.set_len(len);
        Ok(bytes)
    }
}

/// A text that is one of UTF-8.
pub(crate) fn words(call: impl FnOnce(*mut RawHandle) -> u8) -> Result<String, Refusal> {
    Ok(String::from_utf8_lossy(&text(call)?).into_owned())
}

/// What a call gives at a place, or nothing where there are fewer.
pub(crate) fn at_place<T>(found: Result<T, Refusal>) -> Option<Result<T, Refusal>> {
    match found {
        Err(Refusal::OutOfRange) => None,
        found => Some(found),
    }
}
