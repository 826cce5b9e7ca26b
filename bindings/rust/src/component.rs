//! The components of a path, and the iterators over them.

use crate::proved::{self, Walk};
use crate::RelativePath;

/// One component of a path.
///
/// ```
/// use relative_path::{Component, RelativePath};
///
/// let mut components = RelativePath::new("./a/..").components();
/// assert_eq!(components.next(), Some(Component::CurDir));
/// assert_eq!(components.next(), Some(Component::Normal("a")));
/// assert_eq!(components.next(), Some(Component::ParentDir));
/// ```
#[derive(Debug, Clone, Copy, PartialEq, Eq, PartialOrd, Ord, Hash)]
pub enum Component<'a> {
    /// `.`
    CurDir,
    /// `..`
    ParentDir,
    /// A name: any other text between slashes.
    Normal(&'a str),
}

impl<'a> Component<'a> {
    /// Returns the component's text. A name is the slice that a step of a walk handed out.
    ///
    /// ```
    /// use relative_path::Component;
    ///
    /// assert_eq!(Component::ParentDir.as_str(), "..");
    /// ```
    #[must_use]
    pub fn as_str(self) -> &'a str {
        match self {
            Component::CurDir => ".",
            Component::ParentDir => "..",
            Component::Normal(name) => name,
        }
    }
}

/// Views the component alone as a path.
///
/// ```
/// use relative_path::{Component, RelativePath};
///
/// let path: &RelativePath = Component::Normal("a").as_ref();
/// assert_eq!(path, "a");
/// ```
impl AsRef<RelativePath> for Component<'_> {
    fn as_ref(&self) -> &RelativePath {
        RelativePath::new(self.as_str())
    }
}

/// An iterator over the components of a path, from either end.
///
/// ```
/// use relative_path::{Component, RelativePath};
///
/// let mut components = RelativePath::new("a/./b").components();
/// assert_eq!(components.next_back(), Some(Component::Normal("b")));
/// assert_eq!(components.as_relative_path(), "a/.");
/// ```
#[derive(Clone)]
pub struct Components<'a> {
    walk: Walk<'a>,
}

impl<'a> Components<'a> {
    #[inline]
    pub(crate) fn new(text: &'a str) -> Components<'a> {
        Components {
            walk: Walk::new(text),
        }
    }

    /// Views the text that is left as a path.
    ///
    /// ```
    /// use relative_path::RelativePath;
    ///
    /// let mut components = RelativePath::new("/a//b/").components();
    /// components.next();
    /// assert_eq!(components.as_relative_path().as_str(), "b/");
    /// ```
    #[must_use]
    pub fn as_relative_path(&self) -> &'a RelativePath {
        RelativePath::new(self.walk.left())
    }
}

impl<'a> Iterator for Components<'a> {
    type Item = Component<'a>;

    #[inline]
    fn next(&mut self) -> Option<Component<'a>> {
        self.walk.next()
    }
}

impl DoubleEndedIterator for Components<'_> {
    #[inline]
    fn next_back(&mut self) -> Option<Self::Item> {
        self.walk.next_back()
    }
}

/// Two of these iterators are equal if the components left in them are equal.
impl<'a> PartialEq for Components<'a> {
    fn eq(&self, other: &Components<'a>) -> bool {
        proved::eq(self.walk.left(), other.walk.left())
    }
}

/// An iterator over the texts of the components of a path, from either end.
///
/// ```
/// use relative_path::RelativePath;
///
/// let mut texts = RelativePath::new("a/..//b").iter();
/// assert_eq!(texts.next(), Some("a"));
/// assert_eq!(texts.next_back(), Some("b"));
/// assert_eq!(texts.next(), Some(".."));
/// ```
#[derive(Clone)]
pub struct Iter<'a> {
    components: Components<'a>,
}

impl<'a> Iter<'a> {
    #[inline]
    pub(crate) fn new(text: &'a str) -> Iter<'a> {
        Iter {
            components: Components::new(text),
        }
    }
}

impl<'a> Iterator for Iter<'a> {
    type Item = &'a str;

    #[inline]
    fn next(&mut self) -> Option<&'a str> {
        self.components.next().map(Component::as_str)
    }
}

impl DoubleEndedIterator for Iter<'_> {
    #[inline]
    fn next_back(&mut self) -> Option<Self::Item> {
        self.components.next_back().map(Component::as_str)
    }
}
