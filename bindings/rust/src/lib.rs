//! Portable relative paths: texts that are cut at `/` on every platform.
//!
//! This package has the interface of `relative-path` 2.0.2. Its answers about texts come from a library that is proved: its
//! exports have contracts, and a checker proved that the code meets them. What is Rust here is tested and not proved. It
//! passes texts on, and computes three things by itself: the equality, the order and the hash of a [`Component`], the hash of
//! a path, and the results of calls on a platform path that isn't UTF-8.
//!
//! ```
//! use relative_path::{RelativePath, RelativePathBuf};
//!
//! let page = RelativePath::new("docs/guide/index.md");
//! let mut image = RelativePathBuf::from("docs/guide");
//! image.push("../img/a.png");
//! assert_eq!(image.normalize(), "docs/img/a.png");
//! assert_eq!(page.file_stem(), Some("index"));
//! ```
//!
//! A new path keeps the memory that its call asked for: as many bytes as always suffice, such as 601 for `relative` of two
//! paths of 200 bytes, however short the result is. `into_boxed_relative_path` of a buffer frees what is left. A
//! buffer that is lengthened grows by at least 64 bytes. If memory runs out, the program ends.
//!
//! With the feature `serde`, paths are read and written as strings.

#![no_std]
#![deny(missing_docs, unsafe_code, unsafe_op_in_unsafe_fn)]

#[cfg(feature = "alloc")]
extern crate alloc;
#[cfg(feature = "std")]
extern crate std;

#[cfg(feature = "alloc")]
mod buf;
mod compare;
mod component;
mod path;
#[cfg(feature = "std")]
mod path_ext;
#[allow(unsafe_code)]
mod proved;
#[cfg(feature = "serde")]
mod serde_impls;

#[cfg(feature = "alloc")]
pub use crate::buf::RelativePathBuf;
pub use crate::component::{Component, Components, Iter};
#[allow(deprecated)]
pub use crate::path::{Display, RelativePath, StripPrefixError};
#[cfg(feature = "std")]
pub use crate::path::{FromPathError, FromPathErrorKind};
#[cfg(feature = "std")]
pub use crate::path_ext::{PathExt, RelativeToError};

/// The example of the package's page.
#[cfg(doctest)]
#[doc = include_str!("../README.md")]
struct Page;
