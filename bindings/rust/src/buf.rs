//! The owned path.

use alloc::{borrow::Borrow, boxed::Box, string::String};
use core::cmp::Ordering;
use core::fmt;
use core::hash::{Hash, Hasher};
use core::ops::Deref;
#[cfg(feature = "std")]
use std::path::Path;

use crate::proved;
use crate::RelativePath;
#[cfg(feature = "std")]
use crate::{FromPathError, FromPathErrorKind};

/// A relative path that owns its text, in a buffer that can grow.
///
/// ```
/// use relative_path::RelativePathBuf;
///
/// let mut path = RelativePathBuf::new();
/// path.push("a");
/// path.push("b.txt");
/// path.set_extension("md");
/// assert_eq!(path, "a/b.md");
/// ```
#[derive(Clone, Default)]
pub struct RelativePathBuf {
    text: String,
}

impl RelativePathBuf {
    /// Returns an empty path.
    ///
    /// ```
    /// use relative_path::RelativePathBuf;
    ///
    /// assert_eq!(RelativePathBuf::new().as_str(), "");
    /// ```
    #[must_use]
    pub fn new() -> RelativePathBuf {
        RelativePathBuf::default()
    }

    /// Returns the components of a platform path, without any `.`, joined by single slashes.
    ///
    /// Fails if the platform path begins at a root, or isn't UTF-8.
    ///
    /// ```
    /// use relative_path::RelativePathBuf;
    ///
    /// assert_eq!(RelativePathBuf::from_path("./a//b/.")?.as_str(), "a/b");
    /// # Ok::<_, relative_path::FromPathError>(())
    /// ```
    #[cfg(feature = "std")]
    pub fn from_path<P: AsRef<Path>>(path: P) -> Result<RelativePathBuf, FromPathError> {
        let path = path.as_ref();
        match path.to_str() {
            Some(text) => Ok(proved::from_path(text)?.into()),
            None if path.has_root() => Err(FromPathErrorKind::NonRelative.into()),
            None => Err(FromPathErrorKind::NonUtf8.into()),
        }
    }

    /// Appends a path: a slash, unless the text is empty or ends in one, and then `path` without one slash at its start.
    ///
    /// ```
    /// use relative_path::RelativePathBuf;
    ///
    /// let mut path = RelativePathBuf::from("a");
    /// path.push("/b");
    /// assert_eq!(path.as_str(), "a/b");
    /// ```
    pub fn push<P: AsRef<RelativePath>>(&mut self, path: P) {
        proved::push(&mut self.text, path.as_ref().as_str());
    }

    /// Replaces the file name. Without a file name, the new one is pushed.
    ///
    /// ```
    /// use relative_path::RelativePathBuf;
    ///
    /// let mut path = RelativePathBuf::from("a/b.txt");
    /// path.set_file_name("c.txt");
    /// assert_eq!(path, "a/c.txt");
    /// ```
    pub fn set_file_name<S: AsRef<str>>(&mut self, file_name: S) {
        self.text = proved::with_file_name(&self.text, file_name.as_ref());
    }

    /// Replaces the extension of the file name; an empty `extension` removes it. Returns whether the path has a file name.
    ///
    /// ```
    /// use relative_path::RelativePathBuf;
    ///
    /// let mut path = RelativePathBuf::from("a.tar.gz");
    /// assert!(path.set_extension("xz"));
    /// assert_eq!(path, "a.tar.xz");
    /// ```
    pub fn set_extension<S: AsRef<str>>(&mut self, extension: S) -> bool {
        proved::set_extension(&mut self.text, extension.as_ref())
    }

    /// Cuts the path to its parent. Returns whether it has one.
    ///
    /// ```
    /// use relative_path::RelativePathBuf;
    ///
    /// let mut path = RelativePathBuf::from("a/b");
    /// assert!(path.pop());
    /// assert_eq!(path, "a");
    /// ```
    pub fn pop(&mut self) -> bool {
        // The parent is a prefix of the text, by its clause.
        let Some(len) = proved::parent(&self.text).map(str::len) else {
            return false;
        };
        self.text.truncate(len);
        true
    }

    /// Views the buffer as a path.
    #[must_use]
    pub fn as_relative_path(&self) -> &RelativePath {
        self
    }

    /// Returns the text, with the buffer's memory.
    ///
    /// ```
    /// use relative_path::RelativePathBuf;
    ///
    /// assert_eq!(RelativePathBuf::from("a//b").into_string(), "a//b");
    /// ```
    #[must_use]
    pub fn into_string(self) -> String {
        self.text
    }

    /// Returns the path in a box.
    ///
    /// ```
    /// use relative_path::RelativePathBuf;
    ///
    /// assert_eq!(RelativePathBuf::from("a").into_boxed_relative_path().as_str(), "a");
    /// ```
    #[must_use]
    pub fn into_boxed_relative_path(self) -> Box<RelativePath> {
        self.into()
    }
}

impl Deref for RelativePathBuf {
    type Target = RelativePath;

    #[inline]
    fn deref(&self) -> &RelativePath {
        RelativePath::new(self.text.as_str())
    }
}

impl Borrow<RelativePath> for RelativePathBuf {
    fn borrow(&self) -> &RelativePath {
        self
    }
}

impl AsRef<RelativePath> for RelativePathBuf {
    fn as_ref(&self) -> &RelativePath {
        self
    }
}

impl AsRef<str> for RelativePathBuf {
    fn as_ref(&self) -> &str {
        &self.text
    }
}

impl<T: ?Sized + AsRef<str>> From<&T> for RelativePathBuf {
    fn from(text: &T) -> RelativePathBuf {
        String::from(text.as_ref()).into()
    }
}

impl From<String> for RelativePathBuf {
    fn from(text: String) -> RelativePathBuf {
        RelativePathBuf { text }
    }
}

impl From<RelativePathBuf> for String {
    fn from(path: RelativePathBuf) -> String {
        path.text
    }
}

impl PartialEq for RelativePathBuf {
    fn eq(&self, other: &RelativePathBuf) -> bool {
        **self == **other
    }
}

impl Eq for RelativePathBuf {}

impl PartialOrd for RelativePathBuf {
    fn partial_cmp(&self, other: &RelativePathBuf) -> Option<Ordering> {
        Some(self.cmp(other))
    }
}

impl Ord for RelativePathBuf {
    fn cmp(&self, other: &RelativePathBuf) -> Ordering {
        (**self).cmp(&**other)
    }
}

impl Hash for RelativePathBuf {
    fn hash<H: Hasher>(&self, state: &mut H) {
        (**self).hash(state);
    }
}

impl fmt::Debug for RelativePathBuf {
    fn fmt(&self, f: &mut fmt::Formatter<'_>) -> fmt::Result {
        fmt::Debug::fmt(&**self, f)
    }
}

impl fmt::Display for RelativePathBuf {
    fn fmt(&self, f: &mut fmt::Formatter<'_>) -> fmt::Result {
        fmt::Display::fmt(&**self, f)
    }
}

/// Pushes each path that the iterator yields, in order.
impl<P: AsRef<RelativePath>> Extend<P> for RelativePathBuf {
    fn extend<I: IntoIterator<Item = P>>(&mut self, paths: I) {
        for path in paths {
            self.push(path);
        }
    }
}

/// Pushes each path that the iterator yields onto the empty path.
impl<P: AsRef<RelativePath>> FromIterator<P> for RelativePathBuf {
    fn from_iter<I: IntoIterator<Item = P>>(paths: I) -> RelativePathBuf {
        let mut buf = RelativePathBuf::new();
        buf.extend(paths);
        buf
    }
}
