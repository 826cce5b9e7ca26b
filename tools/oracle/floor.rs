//! The least that a walk over components costs: what `tools/speed` times bare iteration against.
//!
//! It is unsafe code by hand, for x86-64 alone. It goes forward, tests no bound, and keeps from call to call where the
//! slashes of the next 64 bytes stand.

use relative_path::Component;
use std::arch::x86_64::{_mm_cmpeq_epi8, _mm_loadu_si128, _mm_movemask_epi8, _mm_set1_epi8};
use std::marker::PhantomData;
use std::slice;
use std::str;

const BLOCK: usize = 16;
const KEPT: usize = 64;
const PAGE: usize = 4096;

/// The components of a text, from the front.
pub struct Components<'a> {
    at: *const u8,
    len: usize,
    /// A bit for each of the next bytes, set at slashes and after the end. All are clear where none is known.
    slashes: u64,
    text: PhantomData<&'a str>,
}

impl<'a> Components<'a> {
    #[inline(always)]
    pub fn new(text: &'a str) -> Components<'a> {
        Components {
            at: text.as_ptr(),
            len: text.len(),
            slashes: 0,
            text: PhantomData,
        }
    }
}

impl<'a> Iterator for Components<'a> {
    type Item = Component<'a>;

    #[inline(always)]
    fn next(&mut self) -> Option<Component<'a>> {
        while self.len > 0 {
            // SAFETY: `len` bytes of the text stand at `at`, and `piece_len` is at most `len`.
            unsafe {
                if self.slashes == 0 {
                    self.slashes = slashes_at(self.at, self.len);
                }
                let piece_len = if self.slashes == 0 {
                    long_piece_len(self.at, self.len)
                } else {
                    self.slashes.trailing_zeros() as usize
                };
                let piece = slice::from_raw_parts(self.at, piece_len);
                let name = Component::Normal(str::from_utf8_unchecked(piece));
                let step = (piece_len + 1).min(self.len);
                // A shift by all 64 bits is two shifts.
                self.slashes = self.slashes.wrapping_shr(piece_len as u32) >> 1;
                self.at = self.at.add(step);
                self.len -= step;
                match piece {
                    [] => {}
                    [first, ..] if *first != b'.' => return Some(name),
                    [_] => return Some(Component::CurDir),
                    [_, b'.'] => return Some(Component::ParentDir),
                    _ => return Some(name),
                }
            }
        }
        None
    }
}

/// A bit for each of the first 64 bytes, set at slashes and after the end.
#[inline(always)]
unsafe fn slashes_at(at: *const u8, len: usize) -> u64 {
    let block = |start: usize| slashes_in_block(at.add(start)) << start;
    if len >= KEPT {
        return block(0) | block(16) | block(32) | block(48);
    }
    let after = !0 << len;
    if len >= 48 {
        block(0) | block(16) | block(32) | block(len - BLOCK) | after
    } else if len >= 32 {
        block(0) | block(16) | block(len - BLOCK) | after
    } else if len >= BLOCK {
        block(0) | block(len - BLOCK) | after
    } else if at as usize % PAGE <= PAGE - BLOCK {
        // The block passes the end of the text, but not that of the page.
        block(0) | after
    } else {
        slashes_in_block(at.add(len).sub(BLOCK)) >> (BLOCK - len) | after
    }
}

#[inline(always)]
unsafe fn slashes_in_block(at: *const u8) -> u64 {
    let is_slash = _mm_cmpeq_epi8(_mm_loadu_si128(at.cast()), _mm_set1_epi8(b'/' as i8));
    _mm_movemask_epi8(is_slash) as u64
}

/// The length of a piece of at least 64 bytes.
#[cold]
unsafe fn long_piece_len(at: *const u8, len: usize) -> usize {
    let bytes = slice::from_raw_parts(at, len);
    bytes.iter().position(|byte| *byte == b'/').unwrap_or(len)
}
