//! Comparisons between the types of paths, and with texts. Each compares two paths as [`RelativePath`] does.

#[cfg(feature = "alloc")]
use alloc::{borrow::Cow, string::String};
use core::cmp::Ordering;

use crate::RelativePath;
#[cfg(feature = "alloc")]
use crate::RelativePathBuf;

/// Compares values of two types, in both orders, as the paths that they are views of.
macro_rules! compare {
    ($left:ty, $right:ty) => {
        compare!(one way: $left, $right);
        compare!(one way: $right, $left);
    };
    (one way: $left:ty, $right:ty) => {
        impl<'a, 'b> PartialEq<$right> for $left {
            fn eq(&self, other: &$right) -> bool {
                let (path, other): (&RelativePath, &RelativePath) = (self.as_ref(), other.as_ref());
                path == other
            }
        }

        impl<'a, 'b> PartialOrd<$right> for $left {
            fn partial_cmp(&self, other: &$right) -> Option<Ordering> {
                let (path, other): (&RelativePath, &RelativePath) = (self.as_ref(), other.as_ref());
                Some(path.cmp(other))
            }
        }
    };
}

compare!(RelativePath, str);
compare!(RelativePath, &'a str);
compare!(&'a RelativePath, str);

#[cfg(feature = "alloc")]
mod owned {
    use super::*;

    compare!(RelativePath, String);
    compare!(&'a RelativePath, String);
    compare!(RelativePathBuf, str);
    compare!(RelativePathBuf, &'a str);
    compare!(RelativePathBuf, String);
    compare!(RelativePathBuf, RelativePath);
    compare!(RelativePathBuf, &'a RelativePath);
    compare!(Cow<'a, RelativePath>, RelativePath);
    compare!(Cow<'a, RelativePath>, &'b RelativePath);
    compare!(Cow<'a, RelativePath>, RelativePathBuf);
}
