//! The borrowed path.

#[cfg(feature = "alloc")]
use alloc::{
    borrow::{Cow, ToOwned},
    boxed::Box,
    rc::Rc,
    string::String,
    sync::Arc,
};
use core::cmp::Ordering;
use core::fmt;
use core::hash::{Hash, Hasher};
#[cfg(feature = "std")]
use std::{
    error,
    ffi::OsString,
    path::{self, Path, PathBuf},
};

use crate::proved;
#[cfg(feature = "std")]
use crate::Component;
#[cfg(feature = "alloc")]
use crate::RelativePathBuf;
use crate::{Components, Iter};

/// Why a platform path is no relative path.
#[cfg(feature = "std")]
#[derive(Debug, Clone, Copy, PartialEq, Eq)]
#[non_exhaustive]
pub enum FromPathErrorKind {
    /// The path begins at a root.
    NonRelative,
    /// A part of the path isn't UTF-8.
    NonUtf8,
    /// A component has a separator of the platform. No call returns this on Unix.
    BadSeparator,
}

/// The error of [`RelativePath::from_path`] and of [`RelativePathBuf::from_path`].
#[cfg(feature = "std")]
#[derive(Debug, Clone, PartialEq, Eq)]
pub struct FromPathError {
    kind: FromPathErrorKind,
}

#[cfg(feature = "std")]
impl FromPathError {
    /// Returns why the path is no relative path.
    ///
    /// ```
    /// use relative_path::{FromPathErrorKind, RelativePathBuf};
    ///
    /// let error = RelativePathBuf::from_path("/a").unwrap_err();
    /// assert_eq!(error.kind(), FromPathErrorKind::NonRelative);
    /// ```
    #[must_use]
    pub fn kind(&self) -> FromPathErrorKind {
        self.kind
    }
}

#[cfg(feature = "std")]
impl From<FromPathErrorKind> for FromPathError {
    fn from(kind: FromPathErrorKind) -> FromPathError {
        FromPathError { kind }
    }
}

#[cfg(feature = "std")]
impl From<proved::NonRelative> for FromPathError {
    fn from(_: proved::NonRelative) -> FromPathError {
        FromPathErrorKind::NonRelative.into()
    }
}

#[cfg(feature = "std")]
impl fmt::Display for FromPathError {
    fn fmt(&self, f: &mut fmt::Formatter<'_>) -> fmt::Result {
        f.pad(match self.kind {
            FromPathErrorKind::NonRelative => "path contains non-relative component",
            FromPathErrorKind::NonUtf8 => "path contains non-utf8 component",
            FromPathErrorKind::BadSeparator => "path contains platform-specific path separator",
        })
    }
}

#[cfg(feature = "std")]
impl error::Error for FromPathError {}

/// The error of [`RelativePath::strip_prefix`]: the path doesn't start with the base.
#[derive(Debug, Clone, PartialEq, Eq)]
pub struct StripPrefixError(());

/// A borrowed relative path. It is unsized, and used by reference, as `str` is.
///
/// Paths are compared and hashed by their components.
///
/// ```
/// use relative_path::RelativePath;
///
/// assert_eq!(RelativePath::new("a//b/"), RelativePath::new("a/b"));
/// assert_ne!(RelativePath::new("a/../b"), RelativePath::new("b"));
/// ```
#[repr(transparent)]
pub struct RelativePath {
    text: str,
}

impl RelativePath {
    /// Views a text as a path; any text is a path.
    ///
    /// ```
    /// use relative_path::RelativePath;
    ///
    /// assert_eq!(RelativePath::new("a/b").as_str(), "a/b");
    /// ```
    pub fn new<S: AsRef<str> + ?Sized>(text: &S) -> &RelativePath {
        proved::as_path(text.as_ref())
    }

    /// Views a platform path as a relative path with the same text.
    ///
    /// Fails if the platform path begins at a root, or isn't UTF-8.
    ///
    /// ```
    /// use relative_path::RelativePath;
    ///
    /// assert_eq!(RelativePath::from_path("a/./b")?.as_str(), "a/./b");
    /// assert!(RelativePath::from_path("/a").is_err());
    /// # Ok::<_, relative_path::FromPathError>(())
    /// ```
    #[cfg(feature = "std")]
    pub fn from_path<P: ?Sized + AsRef<Path>>(path: &P) -> Result<&RelativePath, FromPathError> {
        let text = path.as_ref().to_str().ok_or(FromPathErrorKind::NonUtf8)?;
        Ok(RelativePath::new(proved::view(text)?))
    }

    /// Returns the path's text.
    ///
    /// ```
    /// use relative_path::RelativePath;
    ///
    /// assert_eq!(RelativePath::new("a//b").as_str(), "a//b");
    /// ```
    #[must_use]
    #[inline]
    pub fn as_str(&self) -> &str {
        &self.text
    }

    /// Returns a value that prints as the path does.
    #[deprecated(note = "a RelativePath prints by itself")]
    #[must_use]
    #[allow(deprecated)]
    pub fn display(&self) -> Display<'_> {
        Display { path: self }
    }

    /// Returns this path followed by `path`, in a new buffer. One slash at the start of `path` is dropped, so `path` never
    /// replaces this path.
    ///
    /// ```
    /// use relative_path::RelativePath;
    ///
    /// assert_eq!(RelativePath::new("a/b").join("/c").as_str(), "a/b/c");
    /// ```
    #[cfg(feature = "alloc")]
    pub fn join<P: AsRef<RelativePath>>(&self, path: P) -> RelativePathBuf {
        let path = path.as_ref();
        let mut text = String::with_capacity(self.text.len() + 1 + path.text.len());
        text.push_str(&self.text);
        proved::push(&mut text, &path.text);
        text.into()
    }

    /// Returns an iterator over the path's components, from either end.
    ///
    /// ```
    /// use relative_path::{Component, RelativePath};
    ///
    /// let mut components = RelativePath::new("a/../b").components();
    /// assert_eq!(components.next_back(), Some(Component::Normal("b")));
    /// assert_eq!(components.next_back(), Some(Component::ParentDir));
    /// ```
    #[must_use]
    #[inline]
    pub fn components(&self) -> Components<'_> {
        Components::new(&self.text)
    }

    /// Returns an iterator over the texts of the path's components, from either end.
    ///
    /// ```
    /// use relative_path::RelativePath;
    ///
    /// assert!(RelativePath::new("/a//b").iter().eq(["a", "b"]));
    /// ```
    #[must_use]
    #[inline]
    pub fn iter(&self) -> Iter<'_> {
        Iter::new(&self.text)
    }

    /// Copies the path into a new buffer.
    ///
    /// ```
    /// use relative_path::RelativePath;
    ///
    /// assert_eq!(RelativePath::new("//a/").to_relative_path_buf().as_str(), "//a/");
    /// ```
    #[cfg(feature = "alloc")]
    #[must_use]
    pub fn to_relative_path_buf(&self) -> RelativePathBuf {
        String::from(&self.text).into()
    }

    /// Returns `base` followed by the text of each component of this path.
    ///
    /// ```
    /// use relative_path::RelativePath;
    /// use std::path::Path;
    ///
    /// assert_eq!(RelativePath::new("/b//..").to_path("a"), Path::new("a/b/.."));
    /// ```
    #[cfg(feature = "std")]
    #[must_use]
    pub fn to_path<P: AsRef<Path>>(&self, base: P) -> PathBuf {
        let base = base.as_ref();
        match base.to_str() {
            Some(base) => proved::to_path(&self.text, base).into(),
            None => self.to_path_on_bytes(base),
        }
    }

    /// The same of a base that isn't UTF-8, which the proved library doesn't read.
    #[cfg(feature = "std")]
    fn to_path_on_bytes(&self, base: &Path) -> PathBuf {
        let mut bytes = OsString::from(base);
        for text in self.iter() {
            push_piece(&mut bytes, text);
        }
        bytes.into()
    }

    /// Returns the platform path where this path leads from `base`: each `.` is skipped, each `..` goes up, and each name
    /// is added.
    ///
    /// ```
    /// use relative_path::RelativePath;
    /// use std::path::Path;
    ///
    /// assert_eq!(RelativePath::new("../c").to_logical_path("a/b"), Path::new("a/c"));
    /// ```
    #[cfg(feature = "std")]
    #[must_use]
    pub fn to_logical_path<P: AsRef<Path>>(&self, base: P) -> PathBuf {
        let base = base.as_ref();
        match base.to_str() {
            Some(base) => proved::to_logical_path(&self.text, base).into(),
            None => self.to_logical_path_on_bytes(base),
        }
    }

    /// The same of a base that isn't UTF-8, which the proved library doesn't read.
    #[cfg(feature = "std")]
    fn to_logical_path_on_bytes(&self, base: &Path) -> PathBuf {
        let mut place = PathBuf::from(base);
        for component in self.components() {
            match component {
                Component::CurDir => {}
                Component::ParentDir => {
                    place.pop();
                }
                Component::Normal(name) => {
                    let mut bytes = OsString::from(place);
                    push_piece(&mut bytes, name);
                    place = bytes.into();
                }
            }
        }
        place
    }

    /// Returns the path without its last component other than `.`, and without each `.` after that component. Only the
    /// empty path has no parent.
    ///
    /// ```
    /// use relative_path::RelativePath;
    ///
    /// assert_eq!(RelativePath::new("a/./b/.").parent(), Some(RelativePath::new("a/.")));
    /// assert_eq!(RelativePath::new("").parent(), None);
    /// ```
    #[must_use]
    #[inline]
    pub fn parent(&self) -> Option<&RelativePath> {
        proved::parent(&self.text).map(RelativePath::new)
    }

    /// Returns the last component other than `.`, if that component is a name.
    ///
    /// ```
    /// use relative_path::RelativePath;
    ///
    /// assert_eq!(RelativePath::new("a/b.txt/.").file_name(), Some("b.txt"));
    /// assert_eq!(RelativePath::new("a/..").file_name(), None);
    /// ```
    #[must_use]
    #[inline]
    pub fn file_name(&self) -> Option<&str> {
        proved::file_name(&self.text)
    }

    /// Returns the part of this path after the components of `base` and the slashes that follow them.
    ///
    /// ```
    /// use relative_path::RelativePath;
    ///
    /// assert_eq!(RelativePath::new("a/b/c").strip_prefix("a/b"), Ok(RelativePath::new("c")));
    /// assert!(RelativePath::new("a/b").strip_prefix("b").is_err());
    /// ```
    ///
    /// # Errors
    ///
    /// Fails if this path doesn't start with `base`.
    pub fn strip_prefix<P: AsRef<RelativePath>>(
        &self,
        base: P,
    ) -> Result<&RelativePath, StripPrefixError> {
        proved::strip_prefix(&self.text, base.as_ref().as_str())
            .map(RelativePath::new)
            .ok_or(StripPrefixError(()))
    }

    /// Returns whether this path's components begin with those of `base`.
    ///
    /// ```
    /// use relative_path::RelativePath;
    ///
    /// assert!(RelativePath::new("a/b").starts_with("a"));
    /// assert!(!RelativePath::new("ab").starts_with("a"));
    /// ```
    pub fn starts_with<P: AsRef<RelativePath>>(&self, base: P) -> bool {
        proved::starts_with(&self.text, base.as_ref().as_str())
    }

    /// Returns whether this path's components end with those of `child`.
    ///
    /// ```
    /// use relative_path::RelativePath;
    ///
    /// assert!(RelativePath::new("a/b").ends_with("b"));
    /// assert!(!RelativePath::new("ab").ends_with("b"));
    /// ```
    pub fn ends_with<P: AsRef<RelativePath>>(&self, child: P) -> bool {
        proved::ends_with(&self.text, child.as_ref().as_str())
    }

    /// Returns whether this path's components are `..` first, then names only.
    ///
    /// ```
    /// use relative_path::RelativePath;
    ///
    /// assert!(RelativePath::new("../a//b").is_normalized());
    /// assert!(!RelativePath::new("a/..").is_normalized());
    /// ```
    #[must_use]
    pub fn is_normalized(&self) -> bool {
        proved::is_normalized(&self.text)
    }

    /// Returns a copy of this path with its file name replaced. Without a file name, the new one is pushed.
    ///
    /// ```
    /// use relative_path::RelativePath;
    ///
    /// assert_eq!(RelativePath::new("a/b.txt").with_file_name("c.txt"), "a/c.txt");
    /// ```
    #[cfg(feature = "alloc")]
    pub fn with_file_name<S: AsRef<str>>(&self, file_name: S) -> RelativePathBuf {
        proved::with_file_name(&self.text, file_name.as_ref()).into()
    }

    /// Returns the file name up to its last dot, or the whole file name if it has no dot, or only a leading one.
    ///
    /// ```
    /// use relative_path::RelativePath;
    ///
    /// assert_eq!(RelativePath::new("a.tar.gz").file_stem(), Some("a.tar"));
    /// ```
    #[must_use]
    pub fn file_stem(&self) -> Option<&str> {
        proved::file_stem(&self.text)
    }

    /// Returns the part of the file name after its last dot.
    ///
    /// ```
    /// use relative_path::RelativePath;
    ///
    /// assert_eq!(RelativePath::new("a.tar.gz").extension(), Some("gz"));
    /// assert_eq!(RelativePath::new(".a").extension(), None);
    /// ```
    #[must_use]
    pub fn extension(&self) -> Option<&str> {
        proved::extension(&self.text)
    }

    /// Returns a copy of this path with the extension of its file name replaced. An empty extension removes it.
    ///
    /// ```
    /// use relative_path::RelativePath;
    ///
    /// assert_eq!(RelativePath::new("a.rs").with_extension("txt"), "a.txt");
    /// ```
    #[cfg(feature = "alloc")]
    pub fn with_extension<S: AsRef<str>>(&self, extension: S) -> RelativePathBuf {
        proved::with_extension(&self.text, extension.as_ref()).into()
    }

    /// Returns the only normal path that leads where this path and then `path` lead.
    ///
    /// ```
    /// use relative_path::RelativePath;
    ///
    /// assert_eq!(RelativePath::new("a/b").join_normalized("../c"), "a/c");
    /// ```
    #[cfg(feature = "alloc")]
    pub fn join_normalized<P: AsRef<RelativePath>>(&self, path: P) -> RelativePathBuf {
        proved::join_normalized(&self.text, path.as_ref().as_str()).into()
    }

    /// Returns the only normal path that leads where this path leads: `..` first, then names.
    ///
    /// ```
    /// use relative_path::RelativePath;
    ///
    /// assert_eq!(RelativePath::new("../a/./b/../c").normalize(), "../a/c");
    /// ```
    #[cfg(feature = "alloc")]
    #[must_use]
    pub fn normalize(&self) -> RelativePathBuf {
        proved::normalize(&self.text).into()
    }

    /// Returns the shortest path from where this path leads to where `path` leads. The result is empty if both lead to the
    /// same place, and also if no path leads there.
    ///
    /// ```
    /// use relative_path::RelativePath;
    ///
    /// assert_eq!(RelativePath::new("a/b/c").relative("a/d"), "../../d");
    /// ```
    #[cfg(feature = "alloc")]
    pub fn relative<P: AsRef<RelativePath>>(&self, path: P) -> RelativePathBuf {
        proved::relative(&self.text, path.as_ref().as_str()).into()
    }
}

/// Appends a separator, unless the text is empty, and a piece.
#[cfg(feature = "std")]
fn push_piece(bytes: &mut OsString, piece: &str) {
    if !bytes.is_empty() {
        bytes.push(path::MAIN_SEPARATOR_STR);
    }
    bytes.push(piece);
}

impl PartialEq for RelativePath {
    #[inline]
    fn eq(&self, other: &RelativePath) -> bool {
        proved::eq(&self.text, &other.text)
    }
}

impl Eq for RelativePath {}

impl PartialOrd for RelativePath {
    fn partial_cmp(&self, other: &RelativePath) -> Option<Ordering> {
        Some(self.cmp(other))
    }
}

impl Ord for RelativePath {
    fn cmp(&self, other: &RelativePath) -> Ordering {
        proved::cmp(&self.text, &other.text)
    }
}

impl Hash for RelativePath {
    fn hash<H: Hasher>(&self, state: &mut H) {
        for component in self.components() {
            component.hash(state);
        }
    }
}

impl fmt::Debug for RelativePath {
    fn fmt(&self, f: &mut fmt::Formatter<'_>) -> fmt::Result {
        fmt::Debug::fmt(&self.text, f)
    }
}

impl fmt::Display for RelativePath {
    fn fmt(&self, f: &mut fmt::Formatter<'_>) -> fmt::Result {
        fmt::Display::fmt(&self.text, f)
    }
}

/// A path to be printed, as `RelativePath::display` returns it.
#[deprecated(note = "a RelativePath prints by itself")]
pub struct Display<'a> {
    path: &'a RelativePath,
}

#[allow(deprecated)]
impl fmt::Debug for Display<'_> {
    fn fmt(&self, f: &mut fmt::Formatter<'_>) -> fmt::Result {
        fmt::Debug::fmt(self.path, f)
    }
}

#[allow(deprecated)]
impl fmt::Display for Display<'_> {
    fn fmt(&self, f: &mut fmt::Formatter<'_>) -> fmt::Result {
        fmt::Display::fmt(self.path, f)
    }
}

impl<'a> IntoIterator for &'a RelativePath {
    type Item = &'a str;
    type IntoIter = Iter<'a>;

    fn into_iter(self) -> Iter<'a> {
        self.iter()
    }
}

impl AsRef<RelativePath> for RelativePath {
    fn as_ref(&self) -> &RelativePath {
        self
    }
}

impl AsRef<RelativePath> for str {
    fn as_ref(&self) -> &RelativePath {
        RelativePath::new(self)
    }
}

#[cfg(feature = "alloc")]
impl AsRef<RelativePath> for String {
    fn as_ref(&self) -> &RelativePath {
        RelativePath::new(self.as_str())
    }
}

impl AsRef<str> for RelativePath {
    fn as_ref(&self) -> &str {
        &self.text
    }
}

#[cfg(feature = "alloc")]
impl ToOwned for RelativePath {
    type Owned = RelativePathBuf;

    fn to_owned(&self) -> RelativePathBuf {
        self.to_relative_path_buf()
    }
}

#[cfg(feature = "alloc")]
impl From<Box<str>> for Box<RelativePath> {
    fn from(text: Box<str>) -> Box<RelativePath> {
        proved::into_boxed_path(text)
    }
}

#[cfg(feature = "alloc")]
impl<T: ?Sized + AsRef<str>> From<&T> for Box<RelativePath> {
    fn from(text: &T) -> Box<RelativePath> {
        Box::<str>::from(text.as_ref()).into()
    }
}

#[cfg(feature = "alloc")]
impl From<RelativePathBuf> for Box<RelativePath> {
    fn from(path: RelativePathBuf) -> Box<RelativePath> {
        path.into_string().into_boxed_str().into()
    }
}

#[cfg(feature = "alloc")]
impl Clone for Box<RelativePath> {
    fn clone(&self) -> Box<RelativePath> {
        Box::from(&**self)
    }
}

#[cfg(feature = "alloc")]
impl From<&RelativePath> for Rc<RelativePath> {
    fn from(path: &RelativePath) -> Rc<RelativePath> {
        proved::into_rc_path(Rc::from(path.as_str()))
    }
}

#[cfg(feature = "alloc")]
impl From<RelativePathBuf> for Rc<RelativePath> {
    fn from(path: RelativePathBuf) -> Rc<RelativePath> {
        proved::into_rc_path(Rc::from(path.into_string()))
    }
}

#[cfg(feature = "alloc")]
impl From<&RelativePath> for Arc<RelativePath> {
    fn from(path: &RelativePath) -> Arc<RelativePath> {
        proved::into_arc_path(Arc::from(path.as_str()))
    }
}

#[cfg(feature = "alloc")]
impl From<RelativePathBuf> for Arc<RelativePath> {
    fn from(path: RelativePathBuf) -> Arc<RelativePath> {
        proved::into_arc_path(Arc::from(path.into_string()))
    }
}

#[cfg(feature = "alloc")]
impl<'a> From<&'a RelativePath> for Cow<'a, RelativePath> {
    fn from(path: &'a RelativePath) -> Cow<'a, RelativePath> {
        Cow::Borrowed(path)
    }
}

#[cfg(feature = "alloc")]
impl<'a> From<RelativePathBuf> for Cow<'a, RelativePath> {
    fn from(path: RelativePathBuf) -> Cow<'a, RelativePath> {
        Cow::Owned(path)
    }
}
