//! The call on platform paths that the standard library lacks.

use alloc::string::String;
use core::fmt;
use std::error;
use std::path::{Component, Path, PathBuf};

use crate::proved::{self, NoWay};
use crate::RelativePathBuf;

mod sealed {
    use std::path::{Path, PathBuf};

    /// Keeps other crates from implementing the trait.
    pub trait Sealed {}

    impl Sealed for Path {}
    impl Sealed for PathBuf {}
}

/// The error of [`PathExt::relative_to`]: no relative path leads from the root to the path.
#[derive(Debug, Clone, PartialEq, Eq)]
pub struct RelativeToError {
    kind: RelativeToErrorKind,
}

/// Why no relative path leads from the root to the path.
#[derive(Debug, Clone, Copy, PartialEq, Eq)]
#[non_exhaustive]
enum RelativeToErrorKind {
    /// A component isn't UTF-8.
    NonUtf8,
    /// One of the paths begins at a root, and the other doesn't.
    PrefixMismatch,
    /// The root climbs above the components that both paths begin with.
    AmbiguousTraversal,
}

impl From<RelativeToErrorKind> for RelativeToError {
    fn from(kind: RelativeToErrorKind) -> RelativeToError {
        RelativeToError { kind }
    }
}

impl From<NoWay> for RelativeToError {
    fn from(why: NoWay) -> RelativeToError {
        match why {
            NoWay::PrefixMismatch => RelativeToErrorKind::PrefixMismatch.into(),
            NoWay::AmbiguousTraversal => RelativeToErrorKind::AmbiguousTraversal.into(),
        }
    }
}

impl fmt::Display for RelativeToError {
    fn fmt(&self, f: &mut fmt::Formatter<'_>) -> fmt::Result {
        f.pad(match self.kind {
            RelativeToErrorKind::NonUtf8 => "path contains non-utf8 component",
            RelativeToErrorKind::PrefixMismatch => "paths contain different absolute prefixes",
            RelativeToErrorKind::AmbiguousTraversal => "path traversal cannot be determined",
        })
    }
}

impl error::Error for RelativeToError {}

/// The call on platform paths that the standard library lacks. `Path` and `PathBuf` have it.
pub trait PathExt: sealed::Sealed {
    /// Returns the relative path from `root` to this path: a `..` for each directory that the rest of the root goes down,
    /// after what both begin with, and then the rest of this path.
    ///
    /// Fails if only one of the two begins at a root, if the rest of `root` climbs above what both begin with, or if a
    /// component of the result isn't UTF-8.
    ///
    /// ```
    /// use relative_path::PathExt;
    /// use std::path::Path;
    ///
    /// assert_eq!(Path::new("/a/c").relative_to("/a/b")?, "../c");
    /// # Ok::<_, relative_path::RelativeToError>(())
    /// ```
    fn relative_to<P: AsRef<Path>>(&self, root: P) -> Result<RelativePathBuf, RelativeToError>;
}

impl PathExt for Path {
    fn relative_to<P: AsRef<Path>>(&self, root: P) -> Result<RelativePathBuf, RelativeToError> {
        let root = root.as_ref();
        match (self.to_str(), root.to_str()) {
            (Some(text), Some(root)) => Ok(proved::relative_to(text, root)?.into()),
            _ => relative_to_on_bytes(self, root),
        }
    }
}

impl PathExt for PathBuf {
    fn relative_to<P: AsRef<Path>>(&self, root: P) -> Result<RelativePathBuf, RelativeToError> {
        self.as_path().relative_to(root)
    }
}

/// The same of two paths of which one isn't UTF-8, which the proved library doesn't read.
fn relative_to_on_bytes(path: &Path, root: &Path) -> Result<RelativePathBuf, RelativeToError> {
    if path.has_root() != root.has_root() {
        return Err(RelativeToErrorKind::PrefixMismatch.into());
    }
    let (mut path, mut root) = (path.components().peekable(), root.components().peekable());
    while path.peek().is_some() && path.peek() == root.peek() {
        path.next();
        root.next();
    }
    let mut climb = 0_usize;
    for component in root {
        match component {
            Component::ParentDir => {
                let up = climb.checked_sub(1);
                climb = up.ok_or(RelativeToErrorKind::AmbiguousTraversal)?;
            }
            Component::Normal(_) => climb += 1,
            _ => {}
        }
    }
    let mut way: RelativePathBuf = (0..climb).map(|_| "..").collect();
    for component in path {
        let piece = component.as_os_str().to_str();
        way.push(
            piece
                .map(String::from)
                .ok_or(RelativeToErrorKind::NonUtf8)?,
        );
    }
    Ok(way)
}
