"""The arguments that people chose for the calls of crates/conformance.

VECTORS has them by their kinds. `COMMANDS` of tools/conformance says which kinds of arguments a call takes; the call is
made with all arguments of these kinds. LONG has whole calls, of long texts.
"""

TEXTS = [
    # slashes
    "foo", "/foo", "foo/", "/foo/", "foo/bar", "/foo/bar", "///foo///", "///foo///bar", "foo//bar", "a/b", "a//b", "a/b/c",
    # dots
    "foo/.", "foo/./", "foo/..", "foo/../", "foo/./bar", "foo/../bar", "/foo/bar/.", "baz/./bar/foo//./.", "baz/./bar",
    "baz/.", "a/./b", "foo/./baz.txt", "foo.rs/.",
    # names
    ".foo", "..foo", "foo.", "foo.bar", "foo.txt", "foo.bar.", "foo.bar.txt", ".test.txt", "c:", "a\\b/..",
    'a\\b/"c"', "ü.ö", "é/ü", "日本/語.ü", "日本/語.é", "日本/\u0301a",
    # normal forms
    "a/.././b/../c/d", "a/../../..", "../a/../../b", "./a/b/../../../c/..", "../foo/./bar/../baz.txt", "é/../ü.ö",
    "..../.../..", "x/y/../../a/b/../../../c/d/../e", "foo/bar/../foo/bar", "../foo/bar/../baz.txt", "a//b/.",
    "日本/é/../ü/./語",
]

PAIRS = [
    # paths that are compared
    ("//foo///bar", "/foo/bar"), ("foo///bar", "foo/bar"), ("a//b", "a/b"), ("a/b", "a.b"), ("..", "!"), (".", "!"),
    ("a/./b", "a/b"), ("a/B", "a/b"), ("z", "é"), ("foo/bar/baz///", "foo/bar/baz"), ("/hello///world//.", "hello/world/."),
    ("hello/world///foo/bar/baz", "hello/world/foo/bar/baz"), ("foo/bar", "foo/bar"), ("foo/bar/baz", "foo/bar/baz"),
    # pushes and joins
    ("", "foo"), ("", "//foo"), ("foo", ""), ("foo", "bar"), ("foo", "/bar"), ("foo", "//bar"), ("foo", "."), ("foo", ".."),
    ("foo/", "bar"), ("foo/", "/bar"), ("foo//", "bar"), ("foo/.", "bar"), ("foo./.", "bar"), ("é", "../ü"),
    ("foo/bar", "baz///"), ("hello/world", "///foo/bar/baz"), ("", "foo/bar/baz"), ("/hello///world//", "."),
    ("x/y", "../../a/b/../../../c/d/../e"), ("foo/bar", "../foo/bar"), ("../foo/bar", "../baz.txt"), ("a/", "//b/."),
    ("日本/é", "../ü/./語"),
    # names and extensions
    ("foo/bar", "baz"), (".", "foo"), ("..", "foo"), ("foo/..", "bar"), ("/", "foo"), ("tmp/foo.txt", "bar.txt"),
    ("a/foo", ""), ("foo", "txt"), ("foo.rs", "txt"), ("foo.bar", "txt"), ("foo.bar.baz", "txt"), (".test", "txt"),
    ("foo.txt", ""), ("日本/語.é", "ü"), ("..", "x"), ("....", ""),
    # prefixes and suffixes
    ("foo", "foo"), ("foo/", "foo"), ("foo/bar", "foo"), ("foo/bar/baz", "foo/bar"), ("foo/bar", "foo/bar/baz"),
    ("//foo/bar/", ""), ("//foo/bar/", "foo"), ("//foo/bar/", "foo/bar"), ("//foo/bar/", "fo"), ("foo/bar", "fo"),
    ("etc/passwd", "etc"), ("etc/passwd", "e"), ("etc/passwd", "passwd"), ("etc/passwd", "wd"),
    # ways
    ("a/b/c/d", "a/b/e/f"), ("foo/bar/bap/foo.h", "../arch/foo.h"), ("../arch/foo.h", "foo/bar/bap/foo.h"),
    ("../a/../../foo/bar", "../../foo/baz"), ("a/../aaa", "b/../bbb"), ("../../foo/relative-path", "bar"),
    ("git", "git/relative-path"), ("git/relative-path", "git"), ("../../foo/bar", "../../foo/baz"), ("a/b", "a/c"),
]

WALKS = [
    ("/a/./b/", "FBFFB"), ("a/b/c/d/e", "FBFBFBF"), ("/hello///world//", "FFF"), ("baz/bar///foo", "BBBB"),
]

PLATFORM_PATHS = ["./a/./b//c/", "a/./b", "foo/bar", "/foo/bar", "../é//..", "a\\b/c:"]

AFTER_PLATFORM_PATHS = [
    ("foo", "/"), ("c:\\bar\\baz", "foo"), ("/hello///world//", "."), ("foo/bar", ""), ("/bar/baz", "foo"),
    ("./a/..", "é/"), ("../../x", "/a/./b"), ("..", "foo/bar"), ("./..//x/.", "é/日本/"),
]

# A path and a root.
PLATFORM_WAYS = [
    # without roots
    ("foo", "bar"), ("./foo", "./foo"), ("foo", "fo"), ("fo", "foo"), ("foo", ""), ("", "foo"), ("foo", "."), (".", "foo"),
    ("foo", "foo"), ("some/path", "some/foo/baz/path"), ("some/path", "some/foo/bar/../baz/path"), ("é/ü", "é/日本//."),
    # with steps up
    ("../foo", "../foo"), ("../foo", "../bar"), ("../foo", "../foo/bar/baz"), ("../foo/bar/baz", "../foo"),
    ("../foo/bar/baz", "../foo/bar/baz"), (".", "../.."), (".", "a/../.."), ("../a/..", "../a/../b"),
    ("../a/../b", "../a/.."),
    # with roots
    ("/foo", "/bar"), ("/foo", "bar"), ("foo", "/bar"), ("/foo/bar", "/foo/bar/baz"), ("/foo/bar/qux", "/foo/bar/baz"),
    ("/foo/bar/baz", "/foo/bar"), ("/foo/bar", "/foo/bar/qux"), ("/foo", "/."), ("/foo", "/foo"),
    ("/foo/bar/baz", "/foo/bar/qux"),
    # with slashes at their ends
    ("foo/bar/baz", "foo"), ("foo/bar/baz", "foo/"), ("foo/bar/baz", "foo/bar"), ("foo/bar/baz", "foo/bar/"),
    ("foo/bar/baz", "foo/bar/baz"), ("foo/bar/baz", "foo/bar/baz/"), ("foo/bar/baz/", "foo"), ("foo/bar/baz/", "foo/"),
    ("foo/bar/baz/", "foo/bar"), ("foo/bar/baz/", "foo/bar/"), ("foo/bar/baz/", "foo/bar/baz"),
    ("foo/bar/baz/", "foo/bar/baz/"),
]

VECTORS = {
    ("text",): [(text,) for text in TEXTS],
    ("text", "text"): PAIRS,
    ("text", "target"): PAIRS,
    ("text", "steps"): WALKS,
    ("text", "width"): [("é/b", "2"), ("é/b", "5")],
    ("texts",): [("a", "/b", "", "c")],
    ("text", "texts"): [("x", "a", "/b", "", "c")],
    ("platform",): [(path,) for path in PLATFORM_PATHS],
    ("text", "platform"): AFTER_PLATFORM_PATHS,
    ("platform", "root"): PLATFORM_WAYS,
}

SLASHES, STEPS_ON_THE_SPOT, STEPS_UP = "/" * 10_000, "./" * 1_000, "../" * 4_000
# One step up more than there are names.
NAMES_AND_STEPS_UP = "a/" * 4_000 + "../" * 4_001
LETTERS = "ä" * 500

LONG = [
    ("components", SLASHES), ("parent", SLASHES), ("file_name", SLASHES), ("normalize", SLASHES), ("pop", SLASHES),
    ("parent", STEPS_ON_THE_SPOT), ("is_normalized", STEPS_ON_THE_SPOT), ("normalize", STEPS_ON_THE_SPOT),
    ("normalize", STEPS_UP), ("normalize", NAMES_AND_STEPS_UP), ("relative", NAMES_AND_STEPS_UP, "b"),
    ("relative", "b", NAMES_AND_STEPS_UP), ("display", LETTERS), ("debug", LETTERS),
]
