//! Messages as the proved program has them: in place, of at most 1,024 bytes.

use std::iter::FromIterator;
use std::mem::MaybeUninit;
use std::ops::Deref;
use std::slice;

const LIMIT: usize = 1024;

pub struct Message {
    length: usize,
    bytes: [MaybeUninit<u8>; LIMIT],
}

impl Default for Message {
    fn default() -> Message {
        Message { length: 0, bytes: [MaybeUninit::uninit(); LIMIT] }
    }
}

impl Deref for Message {
    type Target = [u8];

    fn deref(&self) -> &[u8] {
        // The first `length` bytes are written.
        unsafe { slice::from_raw_parts(self.bytes.as_ptr().cast(), self.length) }
    }
}

impl Clone for Message {
    fn clone(&self) -> Message {
        let mut message = Message::default();
        message.bytes[..self.length].copy_from_slice(&self.bytes[..self.length]);
        message.length = self.length;
        message
    }
}

impl FromIterator<u8> for Message {
    fn from_iter<I: IntoIterator<Item = u8>>(bytes: I) -> Message {
        let mut message = Message::default();
        for byte in bytes {
            message.bytes[message.length].write(byte);
            message.length += 1;
        }
        message
    }
}
