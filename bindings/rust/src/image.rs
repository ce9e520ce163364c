//! An engine at rest as bytes, which are given and taken in one part after another: the library's calls for that, and nothing else. A
//! part is as many whole frames as fit; a frame says in front how long it is.
use crate::keep::WhyEmpty;
use crate::library as calls;
use crate::library::Handle;
use crate::numbers::{Numbers, Share, MOST_POOLS};
use crate::{done, Engine, Refused};
use calls::{Mark, CLOCK_WENT_BACK, NOT_WHOLE, OTHER_CONFIG, OTHER_SEAL, OTHER_VERSION, TOO_OLD, UNFIT};

const IDLE: u8 = 104;
// What a frame has in front of its record: a letter, and the record's length.
const FRONT: usize = 5;

/// The number that an image and its flash have; zeros for none.
pub(crate) type Seal = [u8; 16];

/// Which image it is.
#[derive(Clone, Copy, Debug)]
pub(crate) struct Which {
    pub seal: Seal,
    /// The second of the close; as it is read, the one that it is.
    pub second: u64,
    /// Which shard it is of, from 0, and of how many.
    pub shard: u32,
    pub of: u32,
}

impl Which {
    fn mark(&self) -> Mark {
        let (mut first, mut last) = ([0; 8], [0; 8]);
        first.copy_from_slice(&self.seal[..8]);
        last.copy_from_slice(&self.seal[8..]);
        let (seal_first, seal_last) = (u64::from_be_bytes(first), u64::from_be_bytes(last));
        Mark { seal_first, seal_last, second: self.second, shard: self.shard, shards: self.of }
    }
}

/// What a part of an image comes to.
#[derive(Clone, Copy, Debug, PartialEq, Eq)]
pub(crate) enum Part {
    /// So many bytes, which stand at the head of the buffer.
    Bytes(usize),
    /// The buffer has to have so many.
    Wants(usize),
    /// There are no more.
    End,
}

/// An engine that is given as bytes. Nothing of it is left in the end.
#[derive(Debug)]
pub(crate) struct Saver {
    image: calls::Image,
    // the length of a frame that was made, and found no room yet
    waits: Option<usize>,
}

// SAFETY: the library proves that what a handle holds may change threads.
unsafe impl Send for Saver {}

impl Saver {
    /// The engine, for this image. Where it isn't at rest, or is refused otherwise, it comes back; out of memory it may be empty then.
    pub fn of(mut engine: Engine, which: &Which) -> Result<Saver, (Engine, Refused)> {
        let mut image = calls::Image::none();
        // SAFETY: the handle is the engine's own, and the image's is an empty one.
        let status = unsafe { calls::kilambosetry_close(engine.handle(), &which.mark(), &mut image) };
        match done(status) {
            Ok(()) => Ok(Saver { image, waits: None }),
            Err(refused) => Err((engine, refused)),
        }
    }

    /// Copies the next frames to the head of `out`, as many as fit. Refused, nothing more comes of the image.
    pub fn next(&mut self, out: &mut [u8]) -> Result<Part, Refused> {
        let mut length = 0;
        while let Some(frame) = self.frame()? {
            let Some(room) = out[length..].get_mut(..frame) else {
                self.waits = Some(frame);
                return Ok(if length > 0 { Part::Bytes(length) } else { Part::Wants(frame) });
            };
            self.copy(room)?;
            length += frame;
        }
        Ok(if length > 0 { Part::Bytes(length) } else { Part::End })
    }

    // The length of the next frame, which is to be copied; none, where there is no more.
    fn frame(&mut self) -> Result<Option<usize>, Refused> {
        let mut length = 0;
        match self.waits.take() {
            Some(frame) => Ok(Some(frame)),
            // SAFETY: both are valid for the call.
            None => match unsafe { calls::kilambosetry_image_next(&mut self.image, &mut length) } {
                IDLE => Ok(None),
                status => done(status).map(|()| Some(length)),
            },
        }
    }

    fn copy(&mut self, out: &mut [u8]) -> Result<(), Refused> {
        let mut length = 0;
        // SAFETY: `out` is valid for its length, and nothing that is written overlaps.
        done(unsafe { calls::kilambosetry_image_copy(&mut self.image, 0, out.as_mut_ptr(), out.len(), &mut length) })
    }
}

impl Drop for Saver {
    fn drop(&mut self) {
        // SAFETY: the image is this value's own.
        unsafe { calls::kilambosetry_image_free(&mut self.image) }
    }
}

/// An image that is taken.
#[derive(Debug)]
pub(crate) struct Loader(calls::Image);

// SAFETY: the library proves that what a handle holds may change threads.
unsafe impl Send for Loader {}

impl Loader {
    /// One for this image of a shard of a cache with these numbers, which was closed so many seconds ago at most.
    pub fn new(numbers: &Numbers, share: &Share, which: &Which, at_most: u64) -> Result<Loader, Refused> {
        let mut image = calls::Image::none();
        let pools = &[share.pool; MOST_POOLS as usize][..usize::from(share.pools)];
        let (at, many, mark) = (pools.as_ptr(), pools.len(), which.mark());
        // SAFETY: all are valid for the call, and the handle is an empty one.
        done(unsafe {
            match &numbers.flash {
                Some(flash) => calls::kilambosetry_load_with_flash(&mut image, at, many, flash, &mark, at_most),
                None => calls::kilambosetry_load(&mut image, at, many, &mark, at_most),
            }
        })?;
        Ok(Loader(image))
    }

    /// Takes the frames of a part.
    pub fn take(&mut self, mut part: &[u8]) -> Result<(), WhyEmpty> {
        while !part.is_empty() {
            let (frame, rest) = cut(part).ok_or(WhyEmpty::NotWhole)?;
            // SAFETY: the bytes are valid for their length.
            taken(unsafe { calls::kilambosetry_image_take(&mut self.0, frame.as_ptr(), frame.len()) })?;
            part = rest;
        }
        Ok(())
    }

    /// The engine of the image, which is whole.
    pub fn finish(mut self, numbers: &Numbers) -> Result<Engine, WhyEmpty> {
        let mut handle = Handle::none();
        // SAFETY: both are valid for the call, and the cache's handle is an empty one.
        taken(unsafe { calls::kilambosetry_load_end(&mut self.0, &mut handle, numbers.slots()) })?;
        Ok(Engine::resumed(handle, numbers.flash.as_ref()))
    }
}

impl Drop for Loader {
    fn drop(&mut self) {
        // SAFETY: the image is this value's own.
        unsafe { calls::kilambosetry_image_free(&mut self.0) }
    }
}

// The first frame of these bytes, and the rest.
fn cut(bytes: &[u8]) -> Option<(&[u8], &[u8])> {
    let (front, _) = bytes.split_at_checked(FRONT)?;
    let length = u32::from_be_bytes([front[1], front[2], front[3], front[4]]) as usize;
    bytes.split_at_checked(FRONT.checked_add(length)?)
}

// Why an image isn't taken.
fn taken(status: u8) -> Result<(), WhyEmpty> {
    Err(match status {
        0 => return Ok(()),
        NOT_WHOLE => WhyEmpty::NotWhole,
        OTHER_VERSION => WhyEmpty::OtherVersion,
        OTHER_CONFIG => WhyEmpty::OtherOptions,
        OTHER_SEAL => WhyEmpty::OtherSeal,
        TOO_OLD => WhyEmpty::TooOld,
        CLOCK_WENT_BACK => WhyEmpty::ClockWentBack,
        UNFIT => WhyEmpty::Unfit,
        status if Refused(status) == Refused::NO_MEMORY => WhyEmpty::NoMemory,
        _ => WhyEmpty::Unfit,
    })
}

#[cfg(test)]
mod tests {
    use super::*;

    #[test]
    fn frames_are_cut_by_their_front() {
        let part = [b'I', 0, 0, 0, 2, 7, 8, b'E', 0, 0, 0, 0];
        let (frame, rest) = cut(&part).unwrap();
        assert_eq!((frame, rest), (&part[..7], &part[7..]));
        assert_eq!(cut(rest), Some((rest, &[][..])));
        for short in [&part[..4], &part[..6], &[b'I', 255, 255, 255, 255, 0]] {
            assert_eq!(cut(short), None);
        }
    }
}
