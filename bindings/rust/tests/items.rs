//! Each item once, and each trait once: what the docs' examples don't show. What a call returns is proved; these tests show
//! that each call passes its arguments on, in order, and its result back.

use std::borrow::{Borrow, Cow};
use std::cmp::Ordering;
use std::collections::hash_map::DefaultHasher;
use std::collections::{BTreeSet, HashMap, HashSet};
use std::error::Error;
use std::ffi::OsStr;
use std::hash::{Hash, Hasher};
use std::os::unix::ffi::OsStrExt;
use std::path::{Path, PathBuf};
use std::rc::Rc;
use std::sync::Arc;
use std::thread;

use relative_path::{
    Component, FromPathError, FromPathErrorKind, PathExt, RelativePath, RelativePathBuf,
};

/// A name that isn't UTF-8.
fn damaged() -> &'static Path {
    Path::new(OsStr::from_bytes(b"d\xFF"))
}

fn hash_of(value: &(impl Hash + ?Sized)) -> u64 {
    let mut hasher = DefaultHasher::new();
    value.hash(&mut hasher);
    hasher.finish()
}

#[test]
fn parts_of_a_path() {
    let path = RelativePath::new("a/./b.tar.gz/.");
    assert_eq!(path.parent().map(RelativePath::as_str), Some("a/."));
    assert_eq!(path.file_name(), Some("b.tar.gz"));
    assert_eq!(path.file_stem(), Some("b.tar"));
    assert_eq!(path.extension(), Some("gz"));
    assert_eq!(
        path.strip_prefix("a").map(RelativePath::as_str),
        Ok("./b.tar.gz/.")
    );
    assert_eq!(
        path.strip_prefix("b"),
        RelativePath::new("c").strip_prefix("d")
    );
    let empty = RelativePath::new("");
    assert_eq!((empty.parent(), empty.file_name()), (None, None));
    assert_eq!((empty.file_stem(), empty.extension()), (None, None));
}

#[test]
fn questions_about_a_path() {
    let path = RelativePath::new("a/b");
    assert!(path.starts_with("a") && !path.starts_with("b"));
    assert!(path.ends_with("b") && !path.ends_with("a"));
    assert!(path.is_normalized() && !RelativePath::new("a/..").is_normalized());
}

#[test]
fn new_paths() {
    let path = RelativePath::new("a/../b.md");
    assert_eq!(path.join("/c").as_str(), "a/../b.md/c");
    assert_eq!(path.join_normalized("../c").as_str(), "c");
    assert_eq!(path.normalize().as_str(), "b.md");
    assert_eq!(path.with_file_name("c").as_str(), "a/../c");
    assert_eq!(path.with_extension("txt").as_str(), "a/../b.txt");
    assert_eq!(path.with_extension("").as_str(), "a/../b");
    assert_eq!(RelativePath::new("..").with_extension("md").as_str(), "..");
    assert_eq!(path.relative("c/d").as_str(), "../c/d");
    assert_eq!(RelativePath::new("..").relative("a").as_str(), "");
}

/// Each `..` of the result is longer than the name that it climbs over, so the first memory is too short.
#[test]
fn a_path_that_is_longer_than_both_paths() {
    let names = "a/".repeat(1000);
    let way = RelativePath::new(&names).relative("b");
    assert_eq!(way.as_str(), format!("{}b", "../".repeat(1000)));
    let way = Path::new("b").relative_to(&names).unwrap();
    assert_eq!(way.as_str(), format!("{}b", "../".repeat(1000)));
}

#[test]
fn edits_of_a_buffer() {
    let mut path = RelativePathBuf::new();
    for (piece, text) in [
        ("a", "a"),
        ("/b", "a/b"),
        ("", "a/b/"),
        ("c.md", "a/b/c.md"),
    ] {
        path.push(piece);
        assert_eq!(path.as_str(), text);
    }
    assert!(path.set_extension("txt"));
    assert_eq!(path.as_str(), "a/b/c.txt");
    assert!(path.set_extension(""));
    assert_eq!(path.as_str(), "a/b/c");
    path.set_file_name("d/e");
    assert_eq!(path.as_str(), "a/b/d/e");
    assert!(path.pop());
    assert_eq!(path.into_string(), "a/b/d");
    let mut up = RelativePathBuf::from("..");
    assert!(!up.set_extension("md"));
    assert!(up.pop() && !up.pop());
    assert_eq!(up, RelativePathBuf::default());
}

#[test]
fn components_from_both_ends() {
    let mut components = RelativePath::new("//./a/../é/").components();
    assert_eq!(components.next(), Some(Component::CurDir));
    assert_eq!(components.next_back(), Some(Component::Normal("é")));
    assert_eq!(components.as_relative_path().as_str(), "a/..");
    let copy = components.clone();
    assert!(copy == components);
    assert_eq!(components.next_back(), Some(Component::ParentDir));
    assert!(copy != components);
    assert_eq!(components.next(), Some(Component::Normal("a")));
    assert_eq!((components.next(), components.next_back()), (None, None));
    let texts: Vec<&str> = copy.map(Component::as_str).collect();
    assert_eq!(texts, ["a", ".."]);
    let texts: Vec<&str> = RelativePath::new("a/b").into_iter().rev().collect();
    assert_eq!(texts, ["b", "a"]);
    let path: &RelativePath = Component::ParentDir.as_ref();
    assert_eq!(path.as_str(), "..");
}

#[test]
fn equality_order_and_hash_are_by_components() {
    let (path, same) = (RelativePath::new("a//b/"), RelativePath::new("a/b"));
    assert_eq!(path, same);
    assert_eq!(hash_of(path), hash_of(same));
    assert_eq!(hash_of(&path.to_owned()), hash_of(path));
    assert_ne!(hash_of(path), hash_of(RelativePath::new("a/c")));
    assert_eq!(path.cmp(same), Ordering::Equal);
    assert!(RelativePath::new(".") < RelativePath::new(".."));
    assert!(RelativePathBuf::from("a/b") < RelativePathBuf::from("a.b"));
    assert!(RelativePathBuf::from("a/b").cmp(&"b".into()) == Ordering::Less);
    let set: HashSet<RelativePathBuf> = [path.into(), same.into()].into();
    assert_eq!(set.len(), 1);
    let tree: BTreeSet<&RelativePath> = [path, same].into();
    assert_eq!(tree.len(), 1);
}

#[test]
fn comparisons_between_types() {
    let (path, buf) = (RelativePath::new("a//b"), RelativePathBuf::from("a/b"));
    let (text, string) = ("a/b/", String::from("a/b"));
    let cow: Cow<'_, RelativePath> = path.into();
    assert!(*path == *text && *path == text && path == text && path == *text);
    assert!(*text == *path && text == *path && text == path);
    assert!(*path == string && path == string && string == *path && string == path);
    assert!(buf == *text && buf == text && buf == string && buf == *path && buf == path);
    assert!(*text == buf && text == buf && string == buf && *path == buf && path == buf);
    assert!(cow == *path && cow == path && cow == buf);
    assert!(*path == cow && path == cow && buf == cow);
    assert!(buf < "b" && *path <= string && cow >= buf);
    assert_eq!(path.partial_cmp(&"c"), Some(Ordering::Less));
}

#[test]
fn conversions() {
    let text = "a//b";
    let path = RelativePath::new(text);
    assert_eq!(String::from(RelativePathBuf::from(text)), text);
    assert_eq!(RelativePathBuf::from(String::from(text)).as_str(), text);
    assert_eq!(
        path.to_relative_path_buf().as_relative_path().as_str(),
        text
    );
    let boxed: Box<RelativePath> = path.into();
    assert_eq!(boxed.clone().as_str(), text);
    assert_eq!(Box::<RelativePath>::from(Box::<str>::from(text)), boxed);
    assert_eq!(
        Box::<RelativePath>::from(RelativePathBuf::from(text)).as_str(),
        text
    );
    assert_eq!(
        RelativePathBuf::from(text)
            .into_boxed_relative_path()
            .as_str(),
        text
    );
    assert_eq!(Rc::<RelativePath>::from(path).as_str(), text);
    assert_eq!(
        Rc::<RelativePath>::from(RelativePathBuf::from(text)).as_str(),
        text
    );
    assert_eq!(Arc::<RelativePath>::from(path).as_str(), text);
    assert_eq!(
        Arc::<RelativePath>::from(RelativePathBuf::from(text)).as_str(),
        text
    );
    let cow = Cow::<RelativePath>::from(RelativePathBuf::from(text));
    assert!(matches!(cow, Cow::Owned(_)));
    assert_eq!(AsRef::<str>::as_ref(path), text);
    assert_eq!(AsRef::<str>::as_ref(&RelativePathBuf::from(text)), text);
    assert_eq!(
        AsRef::<RelativePath>::as_ref(&String::from(text)).as_str(),
        text
    );
    assert_eq!(AsRef::<RelativePath>::as_ref(path).as_str(), text);
}

#[test]
fn a_map_of_buffers_is_asked_by_views() {
    let sizes: HashMap<RelativePathBuf, u32> = [("a/b".into(), 1)].into();
    assert_eq!(sizes.get(RelativePath::new("a//b")), Some(&1));
    let borrowed: &RelativePath = sizes.keys().next().unwrap().borrow();
    assert_eq!(borrowed.as_str(), "a/b");
}

#[test]
fn many_paths_are_pushed() {
    let mut path: RelativePathBuf = ["a", "/b"].into_iter().collect();
    path.extend([RelativePath::new("c"), RelativePath::new("")]);
    assert_eq!(path.as_str(), "a/b/c/");
}

#[test]
#[allow(deprecated)]
fn paths_print_as_their_text() {
    let path = RelativePath::new("a/\u{e9}");
    assert_eq!(
        format!("[{path:>5}] [{:<5}]", path.to_owned()),
        "[  a/é] [a/é  ]"
    );
    assert_eq!(format!("{path:?} {:?}", path.to_owned()), r#""a/é" "a/é""#);
    assert_eq!(
        format!("{} {:?}", path.display(), path.display()),
        r#"a/é "a/é""#
    );
    assert_eq!(format!("{:?}", Component::Normal("a")), r#"Normal("a")"#);
}

#[test]
fn platform_paths() {
    let path = RelativePath::new("../c");
    assert_eq!(path.to_path("a/b"), Path::new("a/b/../c"));
    assert_eq!(path.to_logical_path("a/b"), Path::new("a/c"));
    assert_eq!(RelativePath::from_path("a/./b").unwrap().as_str(), "a/./b");
    assert_eq!(
        RelativePathBuf::from_path("./a//b").unwrap().as_str(),
        "a/b"
    );
    assert_eq!(PathBuf::from("/a/b").relative_to("/a/c").unwrap(), "../b");
}

#[test]
fn errors_of_platform_paths() {
    let error = RelativePath::from_path("/a").unwrap_err();
    assert_eq!(error, FromPathErrorKind::NonRelative.into());
    assert_eq!(error, RelativePathBuf::from_path("/a").unwrap_err());
    assert_eq!(error.to_string(), "path contains non-relative component");
    assert_eq!(format!("{error:>40}").len(), 40);
    assert_ne!(error, FromPathError::from(FromPathErrorKind::BadSeparator));
    let errors = [("/a", "b"), ("b", "/a"), ("a", ".."), ("/", "/..")];
    let words: Vec<String> = errors
        .map(|(path, root)| Path::new(path).relative_to(root).unwrap_err().to_string())
        .into();
    assert_eq!(words[0], "paths contain different absolute prefixes");
    assert_eq!(words[1], words[0]);
    assert_eq!(words[2], "path traversal cannot be determined");
    assert_eq!(words[3], words[2]);
    let error: Box<dyn Error> = Path::new("/a").relative_to("b").unwrap_err().into();
    assert!(error.source().is_none());
    assert_eq!(format!("{error:>45}").len(), 45);
}

#[test]
fn platform_paths_that_are_not_utf8() {
    let non_utf8 = FromPathError::from(FromPathErrorKind::NonUtf8);
    assert_eq!(RelativePath::from_path(damaged()), Err(non_utf8.clone()));
    assert_eq!(RelativePathBuf::from_path(damaged()), Err(non_utf8));
    let rooted = Path::new("/").join(damaged());
    let kind = RelativePathBuf::from_path(&rooted).unwrap_err().kind();
    assert_eq!(kind, FromPathErrorKind::NonRelative);
    let path = RelativePath::new("./../a");
    assert_eq!(path.to_path(damaged()), damaged().join(".").join("../a"));
    assert_eq!(path.to_logical_path(damaged()), Path::new("a"));
    assert_eq!(
        RelativePath::new("a").to_logical_path(damaged()),
        damaged().join("a")
    );
}

#[test]
fn a_way_between_platform_paths_that_are_not_utf8() {
    let words = |path: &Path, root: &Path| path.relative_to(root).map_err(|it| it.to_string());
    assert_eq!(words(&damaged().join("a"), damaged()), Ok("a".into()));
    assert_eq!(
        words(Path::new("a"), &damaged().join("b")),
        Ok("../../a".into())
    );
    assert_eq!(words(Path::new("a"), &damaged().join("..")), Ok("a".into()));
    let non_utf8 = "path contains non-utf8 component";
    assert_eq!(words(damaged(), Path::new("a")), Err(non_utf8.into()));
    let mismatch = "paths contain different absolute prefixes";
    assert_eq!(words(damaged(), Path::new("/")), Err(mismatch.into()));
    let ambiguous = "path traversal cannot be determined";
    assert_eq!(words(damaged(), Path::new("..")), Err(ambiguous.into()));
}

#[test]
fn threads_share_paths_and_walks() {
    let path = RelativePath::new("a/b");
    let components = path.components();
    thread::scope(|scope| {
        scope.spawn(|| assert_eq!(components.clone().count(), 2));
        scope.spawn(|| assert_eq!(path.file_name(), Some("b")));
    });
}
