//! What both programs share: numbers that look random, and the table of the calls.

use std::collections::hash_map::DefaultHasher;
use std::hash::{Hash, Hasher};

/// A source of numbers that look random, and are the same in each run.
pub struct Numbers(u64);

impl Numbers {
    /// Begins with the first number.
    pub fn new() -> Numbers {
        Numbers(0x9E37_79B9_7F4A_7C15)
    }

    /// Returns a number below a limit.
    pub fn below(&mut self, limit: usize) -> usize {
        self.0 ^= self.0 << 13;
        self.0 ^= self.0 >> 7;
        self.0 ^= self.0 << 17;
        usize::try_from(self.0 >> 33).unwrap() % limit
    }
}

/// Returns the hash of a value.
pub fn hash_of(value: &(impl Hash + ?Sized)) -> u64 {
    let mut hasher = DefaultHasher::new();
    value.hash(&mut hasher);
    hasher.finish()
}

/// Passes each call to the macro `row`, with `to` before it: its name, an expression of a path and of another text, and
/// the other text that the call is timed with. The types that the expression names are those of the side that makes the
/// call.
#[macro_export]
macro_rules! for_each_call {
    ($row:ident, $to:tt) => {
        $row!(
            $to,
            "`==`, equal but for a slash",
            |path, other| path == RelativePath::new(other),
            |texts| &texts.slashed
        );
        $row!(
            $to,
            "`cmp`, equal but for a slash",
            |path, other| path.cmp(RelativePath::new(other)),
            |texts| &texts.slashed
        );
        $row!(
            $to,
            "`hash`, into a `DefaultHasher`",
            |path, other| hash_of(path),
            |texts| ""
        );
        $row!($to, "`parent`", |path, other| path.parent(), |texts| "");
        $row!(
            $to,
            "`file_name`",
            |path, other| path.file_name(),
            |texts| ""
        );
        $row!(
            $to,
            "`file_stem`",
            |path, other| path.file_stem(),
            |texts| ""
        );
        $row!(
            $to,
            "`extension`",
            |path, other| path.extension(),
            |texts| ""
        );
        $row!(
            $to,
            "`is_normalized`",
            |path, other| path.is_normalized(),
            |texts| ""
        );
        $row!(
            $to,
            "`starts_with`, the parent",
            |path, other| path.starts_with(other),
            |texts| &texts.parent
        );
        $row!(
            $to,
            "`ends_with`, the file name",
            |path, other| path.ends_with(other),
            |texts| &texts.file_name
        );
        $row!(
            $to,
            "`strip_prefix`, the parent",
            |path, other| path.strip_prefix(other),
            |texts| &texts.parent
        );
        $row!($to, "`join`", |path, other| path.join(other), |texts| {
            &texts.other
        });
        $row!(
            $to,
            "`with_file_name`",
            |path, other| path.with_file_name(other),
            |texts| "name"
        );
        $row!(
            $to,
            "`with_extension`",
            |path, other| path.with_extension(other),
            |texts| "md"
        );
        $row!(
            $to,
            "`normalize`",
            |path, other| path.normalize(),
            |texts| ""
        );
        $row!(
            $to,
            "`join_normalized`",
            |path, other| path.join_normalized(other),
            |texts| &texts.other
        );
        $row!(
            $to,
            "`relative`",
            |path, other| path.relative(other),
            |texts| &texts.other
        );
        $row!(
            $to,
            "`to_path`",
            |path, other| path.to_path(other),
            |texts| "/srv/www"
        );
        $row!(
            $to,
            "`to_logical_path`",
            |path, other| path.to_logical_path(other),
            |texts| "/srv/www"
        );
        $row!(
            $to,
            "owned `from_path`",
            |path, other| RelativePathBuf::from_path(path.as_str()),
            |texts| ""
        );
    };
}
