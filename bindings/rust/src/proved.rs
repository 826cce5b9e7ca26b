//! The calls of the proved library, and the views of a text as a path. All `unsafe` code is in this module: the compiler
//! accepts none elsewhere.
//!
//! Each call, each number and each type that has the layout of C is declared as `crates/relative_path_c` has it;
//! `tools/bindings` compares the two. What a call gives out is UTF-8 by a clause of its contract, so no text is tested
//! again here. If a call ends with a status that its contract rules out, the program panics: no other result stands in.

#[cfg(feature = "alloc")]
use alloc::{
    alloc::{handle_alloc_error, Layout},
    boxed::Box,
    rc::Rc,
    string::String,
    sync::Arc,
    vec::Vec,
};
use core::cmp::Ordering;
use core::marker::PhantomData;
use core::slice;
use core::str;

use crate::{Component, RelativePath};

/// The answer is there.
const DONE: u32 = 0;
/// The answer is that there is none.
const ABSENT: u32 = 2;
/// An allocation failed.
#[cfg(feature = "alloc")]
const OUT_OF_MEMORY: u32 = 4;
/// The platform path begins with a slash.
#[cfg(feature = "std")]
const NON_RELATIVE: u32 = 5;
/// One of the platform paths begins with a slash, and the other doesn't.
#[cfg(feature = "std")]
const PREFIX_MISMATCH: u32 = 6;
/// The root climbs above the components that both platform paths begin with.
#[cfg(feature = "std")]
const AMBIGUOUS_TRAVERSAL: u32 = 7;

/// The first path comes before the second.
const LESS: u32 = 0;
/// Both paths have the same components.
const EQUAL: u32 = 1;
/// The first path comes after the second.
const GREATER: u32 = 2;

/// The walk has no component left.
const NO_COMPONENT: u32 = 0;
/// The component is `.`.
const CUR_DIR: u32 = 1;
/// The component is `..`.
const PARENT_DIR: u32 = 2;
/// The component is a name.
const NORMAL: u32 = 3;

/// Ends a call whose status, or other number, its contract rules out.
#[cold]
fn contradicts(number: u32) -> ! {
    unreachable!("the library returned {number}, which the call's contract rules out")
}

/// A slice of a text, as the library hands it out.
#[repr(C)]
#[derive(Clone, Copy)]
struct Text {
    at: *const u8,
    len: usize,
}

impl Text {
    /// Returns the slice that a text is. Its pointer is never null, as the library asks.
    #[inline]
    fn of(text: &str) -> Text {
        Text {
            at: text.as_ptr(),
            len: text.len(),
        }
    }

    /// Returns the text that the slice is.
    ///
    /// # Safety
    ///
    /// The slice has to be UTF-8 that lives for `'a`.
    #[inline]
    unsafe fn get<'a>(self) -> &'a str {
        // SAFETY: the caller knows both of the slice.
        unsafe { str::from_utf8_unchecked(slice::from_raw_parts(self.at, self.len)) }
    }
}

/// A walk over the components of a text: what is left of the text.
#[repr(C)]
#[derive(Clone)]
pub(crate) struct Walk<'a> {
    /// A slice of the text that the walk was made of, and UTF-8: by the clauses of the steps, each leaves such a slice.
    left: Text,
    text: PhantomData<&'a str>,
}

// SAFETY: a walk is a `&str` in parts, and a `&str` may go to another thread.
unsafe impl Send for Walk<'_> {}

// SAFETY: a walk is a `&str` in parts, and threads may share a `&str`.
unsafe impl Sync for Walk<'_> {}

impl<'a> Walk<'a> {
    /// Begins a walk over the components of a text.
    #[inline]
    pub(crate) fn new(text: &'a str) -> Walk<'a> {
        Walk {
            left: Text::of(text),
            text: PhantomData,
        }
    }

    /// Returns the text that is left.
    #[inline]
    pub(crate) fn left(&self) -> &'a str {
        // SAFETY: the field is UTF-8, and a slice of a text that lives for `'a`.
        unsafe { self.left.get() }
    }

    /// Takes the first component off the walk.
    #[inline]
    pub(crate) fn next(&mut self) -> Option<Component<'a>> {
        let mut part = Text::of("");
        // SAFETY: what is left is UTF-8, as the library asks of a walk.
        let kind = unsafe { relative_path_next(self, &mut part) };
        // SAFETY: the step handed out `part`.
        unsafe { component(kind, part) }
    }

    /// Takes the last component off the walk.
    #[inline]
    pub(crate) fn next_back(&mut self) -> Option<Component<'a>> {
        let mut part = Text::of("");
        // SAFETY: what is left is UTF-8, as the library asks of a walk.
        let kind = unsafe { relative_path_next_back(self, &mut part) };
        // SAFETY: the step handed out `part`.
        unsafe { component(kind, part) }
    }
}

/// Returns the component that a step of a walk took.
///
/// # Safety
///
/// `kind` and `part` have to be what a step gave of a text that lives for `'a`.
#[inline]
unsafe fn component<'a>(kind: u32, part: Text) -> Option<Component<'a>> {
    match kind {
        NO_COMPONENT => None,
        CUR_DIR => Some(Component::CurDir),
        PARENT_DIR => Some(Component::ParentDir),
        // SAFETY: of a name, the step gave the part of the text, and it is UTF-8 by the clause `utf8`.
        NORMAL => Some(Component::Normal(unsafe { part.get() })),
        _ => contradicts(kind),
    }
}

/// How a call ended, and its answer to a question.
#[repr(C)]
struct Answer {
    status: u32,
    yes: bool,
}

/// How a call ended, and an order.
#[repr(C)]
struct Order {
    status: u32,
    order: u32,
}

/// How a call ended, and how many bytes it wrote, or would have to write.
#[cfg(feature = "alloc")]
#[repr(C)]
struct Written {
    status: u32,
    len: usize,
}

#[rustfmt::skip]
extern "C" {
    fn relative_path_starts_with(text: *const u8, text_len: usize, base: *const u8, base_len: usize) -> Answer;
    fn relative_path_ends_with(text: *const u8, text_len: usize, child: *const u8, child_len: usize) -> Answer;
    fn relative_path_is_normalized(text: *const u8, text_len: usize) -> Answer;
    fn relative_path_cmp(text: *const u8, text_len: usize, other: *const u8, other_len: usize) -> Order;
    fn relative_path_file_stem(text: *const u8, text_len: usize, part: *mut Text) -> u32;
    fn relative_path_extension(text: *const u8, text_len: usize, part: *mut Text) -> u32;
    fn relative_path_strip_prefix(text: *const u8, text_len: usize, base: *const u8, base_len: usize, part: *mut Text) -> u32;
    fn relative_path_next(walk: *mut Walk<'_>, part: *mut Text) -> u32;
    fn relative_path_next_back(walk: *mut Walk<'_>, part: *mut Text) -> u32;
    fn relative_path_str_parent(text: *const u8, text_len: usize, part: *mut Text) -> u32;
    fn relative_path_str_file_name(text: *const u8, text_len: usize, part: *mut Text) -> u32;
    fn relative_path_str_eq(text: *const u8, text_len: usize, other: *const u8, other_len: usize) -> bool;
}

#[cfg(feature = "alloc")]
#[rustfmt::skip]
extern "C" {
    fn relative_path_join_normalized(text: *const u8, text_len: usize, path: *const u8, path_len: usize, out: *mut u8, out_len: usize) -> Written;
    fn relative_path_with_file_name(text: *const u8, text_len: usize, file_name: *const u8, file_name_len: usize, out: *mut u8, out_len: usize) -> Written;
    fn relative_path_with_extension(text: *const u8, text_len: usize, extension: *const u8, extension_len: usize, out: *mut u8, out_len: usize) -> Written;
    fn relative_path_set_extension(memory: *mut u8, memory_len: usize, len: usize, extension: *const u8, extension_len: usize) -> Written;
    fn relative_path_relative(text: *const u8, text_len: usize, to: *const u8, to_len: usize, out: *mut u8, out_len: usize) -> Written;
    fn relative_path_str_normalize(text: *const u8, text_len: usize, out: *mut u8, out_len: usize) -> usize;
    fn relative_path_str_push(memory: *mut u8, memory_len: usize, len: usize, path: *const u8, path_len: usize) -> Written;
}

#[cfg(feature = "std")]
#[rustfmt::skip]
extern "C" {
    fn relative_path_unix_view(text: *const u8, text_len: usize, part: *mut Text) -> u32;
    fn relative_path_unix_from_path(text: *const u8, text_len: usize, out: *mut u8, out_len: usize) -> Written;
    fn relative_path_unix_to_path(text: *const u8, text_len: usize, base: *const u8, base_len: usize, out: *mut u8, out_len: usize) -> Written;
    fn relative_path_unix_to_logical_path(text: *const u8, text_len: usize, base: *const u8, base_len: usize, out: *mut u8, out_len: usize) -> Written;
    fn relative_path_unix_relative_to(text: *const u8, text_len: usize, root: *const u8, root_len: usize, out: *mut u8, out_len: usize) -> Written;
}

/// Returns the part of a text that a call hands out, or the call's status.
///
/// # Safety
///
/// `call` has to be a call of the library that hands out a part of a text that lives for `'a`.
#[inline]
unsafe fn part_of<'a>(call: impl FnOnce(*mut Text) -> u32) -> Result<&'a str, u32> {
    let mut part = Text::of("");
    match call(&mut part) {
        // SAFETY: a call that is done handed out a part of the text, and it is UTF-8 by the word `HandsOut`.
        DONE => Ok(unsafe { part.get() }),
        status => Err(status),
    }
}

/// Returns the part of a text, or `None` if the text has no such part.
#[inline]
fn part_if_any(part: Result<&str, u32>) -> Option<&str> {
    match part {
        Ok(part) => Some(part),
        Err(ABSENT) => None,
        Err(status) => contradicts(status),
    }
}

/// Returns the parent of a path.
#[inline]
pub(crate) fn parent(text: &str) -> Option<&str> {
    // SAFETY: a `str` is UTF-8, as the call requires, and the part is one of `text`.
    part_if_any(unsafe {
        part_of(|part| relative_path_str_parent(text.as_ptr(), text.len(), part))
    })
}

/// Returns the file name of a path.
#[inline]
pub(crate) fn file_name(text: &str) -> Option<&str> {
    // SAFETY: a `str` is UTF-8, as the call requires, and the part is one of `text`.
    part_if_any(unsafe {
        part_of(|part| relative_path_str_file_name(text.as_ptr(), text.len(), part))
    })
}

/// Returns the stem of the file name of a path.
pub(crate) fn file_stem(text: &str) -> Option<&str> {
    // SAFETY: the part is one of `text`.
    part_if_any(unsafe { part_of(|part| relative_path_file_stem(text.as_ptr(), text.len(), part)) })
}

/// Returns the extension of the file name of a path.
pub(crate) fn extension(text: &str) -> Option<&str> {
    // SAFETY: the part is one of `text`.
    part_if_any(unsafe { part_of(|part| relative_path_extension(text.as_ptr(), text.len(), part)) })
}

/// Returns what follows the components of a base in a path.
pub(crate) fn strip_prefix<'a>(text: &'a str, base: &str) -> Option<&'a str> {
    // SAFETY: the part is one of `text`.
    part_if_any(unsafe {
        part_of(|part| {
            relative_path_strip_prefix(text.as_ptr(), text.len(), base.as_ptr(), base.len(), part)
        })
    })
}

/// Returns whether a path begins with the components of a base.
pub(crate) fn starts_with(text: &str, base: &str) -> bool {
    // SAFETY: the call reads two slices. Its status is 'done', since both are UTF-8.
    unsafe { relative_path_starts_with(text.as_ptr(), text.len(), base.as_ptr(), base.len()) }.yes()
}

/// Returns whether a path ends with the components of another.
pub(crate) fn ends_with(text: &str, child: &str) -> bool {
    // SAFETY: the call reads two slices. Its status is 'done', since both are UTF-8.
    unsafe { relative_path_ends_with(text.as_ptr(), text.len(), child.as_ptr(), child.len()) }.yes()
}

/// Returns whether the components of a path are normal.
pub(crate) fn is_normalized(text: &str) -> bool {
    // SAFETY: the call reads a slice. Its status is 'done', since it is UTF-8.
    unsafe { relative_path_is_normalized(text.as_ptr(), text.len()) }.yes()
}

/// Returns whether two paths have the same components.
#[inline]
pub(crate) fn eq(text: &str, other: &str) -> bool {
    // SAFETY: the call reads two slices, which are UTF-8, as it requires.
    unsafe { relative_path_str_eq(text.as_ptr(), text.len(), other.as_ptr(), other.len()) }
}

/// Compares two paths by their components.
#[inline]
pub(crate) fn cmp(text: &str, other: &str) -> Ordering {
    // SAFETY: the call reads two slices. Its status is 'done', since both are UTF-8.
    let answer =
        unsafe { relative_path_cmp(text.as_ptr(), text.len(), other.as_ptr(), other.len()) };
    match (answer.status, answer.order) {
        (DONE, LESS) => Ordering::Less,
        (DONE, EQUAL) => Ordering::Equal,
        (DONE, GREATER) => Ordering::Greater,
        (DONE, order) => contradicts(order),
        (status, _) => contradicts(status),
    }
}

impl Answer {
    /// Returns the answer about texts that are UTF-8.
    fn yes(self) -> bool {
        match self.status {
            DONE => self.yes,
            status => contradicts(status),
        }
    }
}

/// Ends the program, as a failed allocation of that many bytes does in Rust.
#[cfg(feature = "alloc")]
fn end_without_memory(size: usize) -> ! {
    handle_alloc_error(Layout::array::<u8>(size).unwrap_or(Layout::new::<u8>()))
}

/// Returns the text that a call writes, or the call's status. `room` has to be as many bytes as always suffice for the
/// call, by its clause `suffices`.
///
/// # Safety
///
/// `call` has to be a call of the library that writes a text into the memory that it is passed, which is `out`.
#[cfg(feature = "alloc")]
unsafe fn text_of(room: usize, call: impl Fn(*mut u8, usize) -> Written) -> Result<String, u32> {
    let mut bytes = Vec::with_capacity(room);
    let written = call(bytes.as_mut_ptr(), bytes.capacity());
    match written.status {
        DONE => {
            // SAFETY: the call wrote that many bytes, and they are UTF-8 by the word `Writes`.
            Ok(unsafe {
                bytes.set_len(written.len);
                String::from_utf8_unchecked(bytes)
            })
        }
        OUT_OF_MEMORY => end_without_memory(room),
        status => Err(status),
    }
}

/// How many bytes a buffer grows by at least. Most paths are shorter, so that they are pushed together in one allocation.
#[cfg(feature = "alloc")]
const LEAST_GROWTH: usize = 64;

/// Changes a text by a call that writes it anew into the same memory. `more` has to be as many bytes as always suffice
/// after the text, by the call's clause `suffices`. Returns the status if the call isn't done; the text is then as it was.
///
/// # Safety
///
/// `call` has to be a call of the library that writes a text into the memory that it is passed: where it is, its length,
/// and how many bytes at its start are the text so far.
#[cfg(feature = "alloc")]
#[inline]
unsafe fn change(
    text: &mut String,
    more: usize,
    call: impl Fn(*mut u8, usize, usize) -> Written,
) -> Result<(), u32> {
    if text.capacity() - text.len() < more {
        text.reserve(more.max(LEAST_GROWTH));
    }
    // SAFETY: the bytes are UTF-8 again at the end, whatever the call does.
    let bytes = unsafe { text.as_mut_vec() };
    let written = call(bytes.as_mut_ptr(), bytes.capacity(), bytes.len());
    match written.status {
        DONE => {
            // SAFETY: the memory has a text of that many bytes, and they are UTF-8 by the word `Writes`.
            unsafe { bytes.set_len(written.len) };
            Ok(())
        }
        OUT_OF_MEMORY => end_without_memory(bytes.len() + more),
        status => Err(status),
    }
}

/// Returns the text of a call whose contract rules out every other status.
#[cfg(feature = "alloc")]
fn certain(text: Result<String, u32>) -> String {
    text.unwrap_or_else(|status| contradicts(status))
}

/// Pushes a path onto another.
#[cfg(feature = "alloc")]
#[inline]
pub(crate) fn push(text: &mut String, path: &str) {
    // SAFETY: the call writes the text anew into the memory that it is passed. Both texts are UTF-8, as it requires.
    let pushed = unsafe {
        change(text, path.len() + 1, |memory, memory_len, len| {
            relative_path_str_push(memory, memory_len, len, path.as_ptr(), path.len())
        })
    };
    pushed.unwrap_or_else(|status| contradicts(status));
}

/// Replaces the extension of a path's file name. Returns whether the path has a file name.
#[cfg(feature = "alloc")]
pub(crate) fn set_extension(text: &mut String, extension: &str) -> bool {
    // SAFETY: the call writes the text anew into the memory that it is passed.
    let extended = unsafe {
        change(text, extension.len() + 1, |memory, memory_len, len| {
            relative_path_set_extension(
                memory,
                memory_len,
                len,
                extension.as_ptr(),
                extension.len(),
            )
        })
    };
    match extended {
        Ok(()) => true,
        Err(ABSENT) => false,
        Err(status) => contradicts(status),
    }
}

/// Returns a path with its file name replaced.
#[cfg(feature = "alloc")]
pub(crate) fn with_file_name(text: &str, file_name: &str) -> String {
    // SAFETY: the call writes a text into `out`.
    certain(unsafe {
        text_of(text.len() + 1 + file_name.len(), |out, out_len| {
            relative_path_with_file_name(
                text.as_ptr(),
                text.len(),
                file_name.as_ptr(),
                file_name.len(),
                out,
                out_len,
            )
        })
    })
}

/// Returns a path with the extension of its file name replaced.
#[cfg(feature = "alloc")]
pub(crate) fn with_extension(text: &str, extension: &str) -> String {
    // SAFETY: the call writes a text into `out`.
    certain(unsafe {
        text_of(text.len() + 1 + extension.len(), |out, out_len| {
            relative_path_with_extension(
                text.as_ptr(),
                text.len(),
                extension.as_ptr(),
                extension.len(),
                out,
                out_len,
            )
        })
    })
}

/// Returns the normal path of a path.
#[cfg(feature = "alloc")]
pub(crate) fn normalize(text: &str) -> String {
    let mut bytes = Vec::with_capacity(text.len());
    // SAFETY: a `str` is UTF-8, and the memory is as long as the text, as the call requires. It writes the bytes that it
    // counts, and they are UTF-8 by its clause `utf8`.
    unsafe {
        let out = bytes.as_mut_ptr();
        let len = relative_path_str_normalize(text.as_ptr(), text.len(), out, bytes.capacity());
        bytes.set_len(len);
        String::from_utf8_unchecked(bytes)
    }
}

/// Returns the normal path of two paths in turn.
#[cfg(feature = "alloc")]
pub(crate) fn join_normalized(text: &str, path: &str) -> String {
    // SAFETY: the call writes a text into `out`.
    certain(unsafe {
        text_of(text.len() + 1 + path.len(), |out, out_len| {
            relative_path_join_normalized(
                text.as_ptr(),
                text.len(),
                path.as_ptr(),
                path.len(),
                out,
                out_len,
            )
        })
    })
}

/// Returns the shortest path from one path to another.
#[cfg(feature = "alloc")]
pub(crate) fn relative(text: &str, to: &str) -> String {
    // SAFETY: the call writes a text into `out`.
    certain(unsafe {
        text_of(2 * text.len() + 1 + to.len(), |out, out_len| {
            relative_path_relative(
                text.as_ptr(),
                text.len(),
                to.as_ptr(),
                to.len(),
                out,
                out_len,
            )
        })
    })
}

/// A platform path is no relative path: it begins with a slash.
#[cfg(feature = "std")]
pub(crate) struct NonRelative;

#[cfg(feature = "std")]
impl NonRelative {
    /// Returns what a status of a call on one platform path stands for.
    fn of(status: u32) -> NonRelative {
        match status {
            NON_RELATIVE => NonRelative,
            _ => contradicts(status),
        }
    }
}

/// Why no relative path leads from one platform path to another.
#[cfg(feature = "std")]
pub(crate) enum NoWay {
    /// One of the paths begins with a slash, and the other doesn't.
    PrefixMismatch,
    /// The root climbs above the components that both paths begin with.
    AmbiguousTraversal,
}

#[cfg(feature = "std")]
impl NoWay {
    /// Returns what a status of a call on two platform paths stands for.
    fn of(status: u32) -> NoWay {
        match status {
            PREFIX_MISMATCH => NoWay::PrefixMismatch,
            AMBIGUOUS_TRAVERSAL => NoWay::AmbiguousTraversal,
            _ => contradicts(status),
        }
    }
}

/// Returns a platform path as a relative path.
#[cfg(feature = "std")]
pub(crate) fn view(text: &str) -> Result<&str, NonRelative> {
    // SAFETY: the part is one of `text`.
    unsafe { part_of(|part| relative_path_unix_view(text.as_ptr(), text.len(), part)) }
        .map_err(NonRelative::of)
}

/// Returns the components of a platform path as a relative path.
#[cfg(feature = "std")]
pub(crate) fn from_path(text: &str) -> Result<String, NonRelative> {
    // SAFETY: the call writes a text into `out`.
    unsafe {
        text_of(text.len(), |out, out_len| {
            relative_path_unix_from_path(text.as_ptr(), text.len(), out, out_len)
        })
    }
    .map_err(NonRelative::of)
}

/// Returns a platform path followed by the components of a path.
#[cfg(feature = "std")]
pub(crate) fn to_path(text: &str, base: &str) -> String {
    // SAFETY: the call writes a text into `out`.
    certain(unsafe {
        text_of(base.len() + 1 + text.len(), |out, out_len| {
            relative_path_unix_to_path(
                text.as_ptr(),
                text.len(),
                base.as_ptr(),
                base.len(),
                out,
                out_len,
            )
        })
    })
}

/// Returns the platform path where a path leads from another.
#[cfg(feature = "std")]
pub(crate) fn to_logical_path(text: &str, base: &str) -> String {
    // SAFETY: the call writes a text into `out`.
    certain(unsafe {
        text_of(base.len() + 1 + text.len(), |out, out_len| {
            relative_path_unix_to_logical_path(
                text.as_ptr(),
                text.len(),
                base.as_ptr(),
                base.len(),
                out,
                out_len,
            )
        })
    })
}

/// Returns the relative path from one platform path to another.
#[cfg(feature = "std")]
pub(crate) fn relative_to(text: &str, root: &str) -> Result<String, NoWay> {
    // SAFETY: the call writes a text into `out`.
    unsafe {
        text_of(2 * root.len() + 1 + text.len(), |out, out_len| {
            relative_path_unix_relative_to(
                text.as_ptr(),
                text.len(),
                root.as_ptr(),
                root.len(),
                out,
                out_len,
            )
        })
    }
    .map_err(NoWay::of)
}

/// Views a text as a path.
#[inline]
pub(crate) fn as_path(text: &str) -> &RelativePath {
    // SAFETY: a path is `repr(transparent)` over a `str`, and any `str` is one.
    unsafe { &*(text as *const str as *const RelativePath) }
}

/// Views a boxed text as a boxed path.
#[cfg(feature = "alloc")]
pub(crate) fn into_boxed_path(text: Box<str>) -> Box<RelativePath> {
    // SAFETY: a path is `repr(transparent)` over a `str`, so the box has the layout that it was allocated with.
    unsafe { Box::from_raw(Box::into_raw(text) as *mut RelativePath) }
}

/// Views a shared text as a shared path.
#[cfg(feature = "alloc")]
pub(crate) fn into_rc_path(text: Rc<str>) -> Rc<RelativePath> {
    // SAFETY: a path is `repr(transparent)` over a `str`, so both have one size and alignment.
    unsafe { Rc::from_raw(Rc::into_raw(text) as *const RelativePath) }
}

/// Views a text that threads share as a path.
#[cfg(feature = "alloc")]
pub(crate) fn into_arc_path(text: Arc<str>) -> Arc<RelativePath> {
    // SAFETY: a path is `repr(transparent)` over a `str`, so both have one size and alignment.
    unsafe { Arc::from_raw(Arc::into_raw(text) as *const RelativePath) }
}

#[cfg(all(test, feature = "alloc"))]
mod tests {
    use super::*;

    /// The library returns no such status, so no caller of the package can test this.
    #[test]
    #[should_panic(expected = "the library returned 3")]
    fn a_status_that_is_ruled_out_is_no_empty_path() {
        certain(Err(3));
    }
}
