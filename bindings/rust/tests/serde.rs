//! Paths are read and written as strings.
#![cfg(feature = "serde")]

use relative_path::{RelativePath, RelativePathBuf};

#[test]
fn paths_are_strings_in_json() {
    let json = r#""a/b""#;
    assert_eq!(
        serde_json::to_string(RelativePath::new("a/b")).unwrap(),
        json
    );
    assert_eq!(
        serde_json::to_string(&RelativePathBuf::from("a/b")).unwrap(),
        json
    );
    let buf: RelativePathBuf = serde_json::from_str(json).unwrap();
    let boxed: Box<RelativePath> = serde_json::from_str(json).unwrap();
    let borrowed: &RelativePath = serde_json::from_str(json).unwrap();
    assert_eq!(
        (buf.as_str(), boxed.as_str(), borrowed.as_str()),
        ("a/b", "a/b", "a/b")
    );
    assert!(serde_json::from_str::<RelativePathBuf>("1").is_err());
}
