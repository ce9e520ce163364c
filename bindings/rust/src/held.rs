use crate::library::{self, Handle};
use crate::{done, Refused};

/// A value that was read, or a page of flash, held in the library without a copy. It stays as it is, whatever becomes of the
/// cache, and is freed when it is dropped. The library copies bytes out of it and lends none: so it has no `Deref`, which
/// [`Value`](crate::Value) has. It is the library's handle, so that a caller in C may be handed one.
#[derive(Debug)]
#[repr(transparent)]
pub struct Held(pub(crate) Handle);

// SAFETY: the library proves that what a handle holds may change threads, and each call takes the handle alone.
unsafe impl Send for Held {}

impl Held {
    /// A handle that holds nothing.
    pub(crate) fn none() -> Held {
        Held(Handle::none())
    }

    /// A copy of these bytes, as a page that is to be handed in. No cache is asked, so that no lock is needed. Refused with
    /// [`Refused::NO_MEMORY`].
    pub fn copy_of(bytes: &[u8]) -> Result<Held, Refused> {
        let mut value = Held::none();
        // SAFETY: the bytes are valid for their length, and the handle is this value's own.
        done(unsafe { library::kilambosetry_page_new(&mut value.0, bytes.as_ptr(), bytes.len()) })?;
        Ok(value)
    }

    /// How many bytes it has.
    pub fn length(&mut self) -> usize {
        let mut len = 0;
        // SAFETY: both pointers are of places that live through the call, and overlap nothing.
        unsafe { library::kilambosetry_value_length(&mut self.0, &mut len) };
        len
    }

    /// Copies its bytes from place `from` on to the head of `out`, as many as there are and fit, and answers how many.
    pub fn copy(&mut self, from: usize, out: &mut [u8]) -> usize {
        let mut len = 0;
        // SAFETY: `out` is valid for its length, and nothing overlaps.
        unsafe { library::kilambosetry_value_copy(&mut self.0, from, out.as_mut_ptr(), out.len(), &mut len) };
        len
    }

    /// A copy of its bytes. Where an allocation fails, the process ends.
    pub fn to_vec(&mut self) -> Vec<u8> {
        let mut bytes = vec![0; self.length()];
        self.copy(0, &mut bytes);
        bytes
    }

    /// A copy of its bytes. Refused with [`Refused::NO_MEMORY`].
    pub fn try_to_vec(&mut self) -> Result<Vec<u8>, Refused> {
        let mut bytes = zeros(self.length())?;
        self.copy(0, &mut bytes);
        Ok(bytes)
    }
}

// So many zeros, or a refusal.
pub(crate) fn zeros(length: usize) -> Result<Vec<u8>, Refused> {
    let mut bytes = Vec::new();
    bytes.try_reserve_exact(length).map_err(|_| Refused::NO_MEMORY)?;
    bytes.resize(length, 0);
    Ok(bytes)
}

// A copy of these bytes, or a refusal.
pub(crate) fn copied(bytes: &[u8]) -> Result<Vec<u8>, Refused> {
    let mut copy = Vec::new();
    copy.try_reserve_exact(bytes.len()).map_err(|_| Refused::NO_MEMORY)?;
    copy.extend_from_slice(bytes);
    Ok(copy)
}

impl Drop for Held {
    fn drop(&mut self) {
        // SAFETY: the handle is this value's own.
        unsafe { library::kilambosetry_value_free(&mut self.0) }
    }
}
