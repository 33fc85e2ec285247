//! Collierbud for Rust: the three functions are declared as the archive has them, and wrapped once, so that the rest of a
//! program is safe code. What they take and answer stands in include/collierbud.h. To use it, copy this file or name it
//! by its path, and link crates/collierbud/out/libcollierbud.a, which `rt lib` in crates/collierbud makes.

// A slice crosses as a pointer and a length; that of a Rust slice is never null, nor lent twice.
#[link(name = "collierbud", kind = "static")]
extern "C" {
    fn collierbud_tag(
        order: usize, bits: usize, k: *const u8, k_len: usize, l: *const u8, l_len: usize,
        message: *const u8, message_len: usize, tag: *mut u8, tag_len: usize,
        counts: *mut u64, counts_len: usize,
    ) -> u8;
    fn collierbud_check(
        order: usize, bits: usize, k: *const u8, k_len: usize, l: *const u8, l_len: usize,
        message: *const u8, message_len: usize, received: *const u8, received_len: usize,
        counts: *mut u64, counts_len: usize,
    ) -> u8;
    fn collierbud_open(
        order: usize, bits: usize, k: *const u8, k_len: usize, l: *const u8, l_len: usize,
        frame: *const u8, frame_len: usize, counts: *mut u64, counts_len: usize,
    ) -> u8;
}

/// What a tag is made and checked with: the order, 1 to 5, or 0 for 2; the length of a tag in bits, 1 to 128, or 0 for 128;
/// and both keys.
pub struct Keys {
    pub order: usize,
    pub bits: usize,
    pub k: [u8; 16],
    pub l: [u8; 16],
}

impl Keys {
    /// Writes the tag of a message: the number, and the whole-cipher and four-round steps.
    pub fn tag(&self, message: &[u8], tag: &mut [u8]) -> (u8, [u64; 2]) {
        let mut counts = [0; 2];
        let number = unsafe {
            collierbud_tag(
                self.order, self.bits, self.k.as_ptr(), 16, self.l.as_ptr(), 16,
                message.as_ptr(), message.len(), tag.as_mut_ptr(), tag.len(),
                counts.as_mut_ptr(), 2,
            )
        };
        (number, counts)
    }

    /// Checks a received tag for a message.
    pub fn check(&self, message: &[u8], received: &[u8]) -> (u8, [u64; 2]) {
        let mut counts = [0; 2];
        let number = unsafe {
            collierbud_check(
                self.order, self.bits, self.k.as_ptr(), 16, self.l.as_ptr(), 16,
                message.as_ptr(), message.len(), received.as_ptr(), received.len(),
                counts.as_mut_ptr(), 2,
            )
        };
        (number, counts)
    }

    /// Opens a frame: its body, as that part of the frame, and no bytes where it is refused.
    pub fn open<'a>(&self, frame: &'a [u8]) -> (u8, [u64; 2], &'a [u8]) {
        let mut counts = [0; 3];
        let number = unsafe {
            collierbud_open(
                self.order, self.bits, self.k.as_ptr(), 16, self.l.as_ptr(), 16,
                frame.as_ptr(), frame.len(), counts.as_mut_ptr(), 3,
            )
        };
        (number, [counts[0], counts[1]], &frame[..counts[2] as usize])
    }
}
