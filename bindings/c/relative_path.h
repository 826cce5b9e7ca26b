/*
 * Portable relative paths: texts that are cut at '/' on every platform. Each function is proved to do what its sentence
 * says; the contracts are in crates/relative_path_c.
 *
 * A text is a pointer and a length in bytes. No text ends in NUL. A pointer is never null, not even for a length of 0.
 * A text that isn't UTF-8 is no mistake of the caller: the function returns RELATIVE_PATH_NOT_UTF8.
 *
 * A part that a function hands out is a slice of the caller's own text, and lives as long as that text. A walk reads its
 * text, which has to live and to stay as it is while the walk is used.
 *
 * A new text goes into `out`, which must not overlap a text that the function reads. `memory` has a text at its start, which
 * the new text replaces; it must not overlap another text that the function reads. The sentence says how many bytes of
 * memory always suffice; with fewer, RELATIVE_PATH_NO_ROOM may say how many the text needs. The bytes after the new text stay
 * as they were, but `relative_path_normalize` may change as many bytes of `out` as `text` has. Unless the status is
 * RELATIVE_PATH_DONE, `part`, `walk`, `memory` and `out` stay as they were.
 *
 * If the sentence says that the function allocates, the status may be RELATIVE_PATH_OUT_OF_MEMORY. What a function
 * allocates, it frees before it returns: nothing that it returns has to be freed, and no result keeps memory. The functions
 * keep nothing from call to call, so threads may call them at the same time.
 */
#ifndef RELATIVE_PATH_H
#define RELATIVE_PATH_H

#include <stdbool.h>
#include <stddef.h>
#include <stdint.h>

#ifdef __cplusplus
extern "C" {
#endif

/* How a call ended. */
enum relative_path_status {
    RELATIVE_PATH_DONE = 0,                /* the answer is there */
    RELATIVE_PATH_NOT_UTF8 = 1,            /* an argument isn't UTF-8 */
    RELATIVE_PATH_ABSENT = 2,              /* the answer is that there is none */
    RELATIVE_PATH_NO_ROOM = 3,             /* the caller's memory is too short; `len` says how long the text is */
    RELATIVE_PATH_OUT_OF_MEMORY = 4,       /* an allocation failed */
    RELATIVE_PATH_NON_RELATIVE = 5,        /* the platform path begins with a slash */
    RELATIVE_PATH_PREFIX_MISMATCH = 6,     /* one of the platform paths begins with a slash, and the other doesn't */
    RELATIVE_PATH_AMBIGUOUS_TRAVERSAL = 7, /* the root climbs above the components that both paths begin with */
};

/* How two paths stand to each other. */
enum relative_path_order {
    RELATIVE_PATH_LESS = 0,
    RELATIVE_PATH_EQUAL = 1,
    RELATIVE_PATH_GREATER = 2,
};

/* What a step of a walk took. */
enum relative_path_component {
    RELATIVE_PATH_NO_COMPONENT = 0, /* nothing: the walk has no component left */
    RELATIVE_PATH_CUR_DIR = 1,      /* a "." */
    RELATIVE_PATH_PARENT_DIR = 2,   /* a ".." */
    RELATIVE_PATH_NORMAL = 3,       /* a name */
};

/* A part of a text. */
struct relative_path_text {
    const char *at;
    size_t len;
};

/* A walk over the components of a text: what is left of the text. `relative_path_components` makes it, and only
   `relative_path_next` and `relative_path_next_back` change it. It may be copied. The text has to live and to stay as it is
   while the walk, or a copy of it, is used. */
struct relative_path_walk {
    struct relative_path_text left;
};

/* How a call ended, and its answer to a question. */
struct relative_path_answer {
    uint32_t status;
    bool yes;
};

/* How a call ended, and a number. */
struct relative_path_count {
    uint32_t status;
    size_t count;
};

/* How a call ended, and an `enum relative_path_order`. */
struct relative_path_ordering {
    uint32_t status;
    uint32_t order;
};

/* How a call ended, and how many bytes it wrote. With RELATIVE_PATH_NO_ROOM `len` is how many bytes the text has. */
struct relative_path_written {
    uint32_t status;
    size_t len;
};

/* ---- questions */

/* Returns whether the components of `text` begin with those of `base`. */
struct relative_path_answer relative_path_starts_with(const char *text, size_t text_len, const char *base, size_t base_len);

/* Returns whether the components of `text` end with those of `child`. */
struct relative_path_answer relative_path_ends_with(const char *text, size_t text_len, const char *child, size_t child_len);

/* Returns whether the components of `text` are ".." first, then names only. */
struct relative_path_answer relative_path_is_normalized(const char *text, size_t text_len);

/* Returns whether the two have the same components. */
struct relative_path_answer relative_path_eq(const char *text, size_t text_len, const char *other, size_t other_len);

/* Compares the two by their components: "." comes first, then "..", then names by their bytes. */
struct relative_path_ordering relative_path_cmp(const char *text, size_t text_len, const char *other, size_t other_len);

/* Returns how many names a base needs for `text` to lead to a place from it. */
struct relative_path_count relative_path_climb(const char *text, size_t text_len);

/* Returns the length of the shortest base from which the two lead apart, or RELATIVE_PATH_ABSENT if they lead alike from
   every base. Allocates. */
struct relative_path_count relative_path_leads_apart(const char *text, size_t text_len, const char *other, size_t other_len);

/* ---- parts */

/* Hands out the path without its last component other than ".", or returns RELATIVE_PATH_ABSENT for the empty path. */
uint32_t relative_path_parent(const char *text, size_t text_len, struct relative_path_text *part);

/* Hands out the last component other than ".", or returns RELATIVE_PATH_ABSENT if that is no name. */
uint32_t relative_path_file_name(const char *text, size_t text_len, struct relative_path_text *part);

/* Hands out the file name up to its last dot, or returns RELATIVE_PATH_ABSENT if there is no file name. */
uint32_t relative_path_file_stem(const char *text, size_t text_len, struct relative_path_text *part);

/* Hands out the part of the file name after its last dot, or returns RELATIVE_PATH_ABSENT if there is none. */
uint32_t relative_path_extension(const char *text, size_t text_len, struct relative_path_text *part);

/* Hands out what follows the components of `base` in `text`, or returns RELATIVE_PATH_ABSENT if `text` doesn't start with
   `base`. */
uint32_t relative_path_strip_prefix(const char *text, size_t text_len, const char *base, size_t base_len, struct relative_path_text *part);

/* ---- walks */

/* Begins a walk over the components of `text`. */
uint32_t relative_path_components(const char *text, size_t text_len, struct relative_path_walk *walk);

/* Takes the first component off the walk: returns an `enum relative_path_component`, and hands out a name in `part`. */
uint32_t relative_path_next(struct relative_path_walk *walk, struct relative_path_text *part);

/* Takes the last component off the walk, as `relative_path_next` takes the first. */
uint32_t relative_path_next_back(struct relative_path_walk *walk, struct relative_path_text *part);

/* ---- texts */

/* Writes `text` followed by `path`. `text_len + 1 + path_len` bytes always suffice. Allocates. */
struct relative_path_written relative_path_join(const char *text, size_t text_len, const char *path, size_t path_len, char *out, size_t out_len);

/* Writes the only normal path that leads where `text` and then `path` lead. `text_len + 1 + path_len` bytes always suffice.
   Allocates. */
struct relative_path_written relative_path_join_normalized(const char *text, size_t text_len, const char *path, size_t path_len, char *out, size_t out_len);

/* Writes the only normal path that leads where `text` leads. `text_len` bytes always suffice. With fewer, the function
   allocates; with as many, it may allocate, and does without if memory is lacking. */
struct relative_path_written relative_path_normalize(const char *text, size_t text_len, char *out, size_t out_len);

/* Writes `text` with its file name replaced; without a file name, `file_name` is pushed onto `text`.
   `text_len + 1 + file_name_len` bytes always suffice. Allocates. */
struct relative_path_written relative_path_with_file_name(const char *text, size_t text_len, const char *file_name, size_t file_name_len, char *out, size_t out_len);

/* Writes `text` with the extension of its file name replaced; an empty extension removes it.
   `text_len + 1 + extension_len` bytes always suffice. Allocates. */
struct relative_path_written relative_path_with_extension(const char *text, size_t text_len, const char *extension, size_t extension_len, char *out, size_t out_len);

/* Replaces the extension of the path that is the first `len` bytes of `memory`, or all of it if there are fewer. Returns
   RELATIVE_PATH_ABSENT if the path has no file name. `len + 1 + extension_len` bytes always suffice. Allocates. */
struct relative_path_written relative_path_set_extension(char *memory, size_t memory_len, size_t len, const char *extension, size_t extension_len);

/* Pushes `path` onto the path that is the first `len` bytes of `memory`, or all of it if there are fewer.
   `len + 1 + path_len` bytes always suffice. */
struct relative_path_written relative_path_push(char *memory, size_t memory_len, size_t len, const char *path, size_t path_len);

/* Writes the shortest path from where `text` leads to where `to` leads, or the empty path if none leads there.
   `2 * text_len + 1 + to_len` bytes always suffice. Allocates. */
struct relative_path_written relative_path_relative(const char *text, size_t text_len, const char *to, size_t to_len, char *out, size_t out_len);

/* Writes the shortest path from where `text` leads to where `to` leads, or returns RELATIVE_PATH_ABSENT if none leads
   there. `2 * text_len + 1 + to_len` bytes always suffice. Allocates. */
struct relative_path_written relative_path_try_relative(const char *text, size_t text_len, const char *to, size_t to_len, char *out, size_t out_len);

/* ---- platform paths, under the Unix rules */

/* Hands out the shortest prefix of `text` that has the same root and all its components but the last. */
uint32_t relative_path_unix_parent_text(const char *text, size_t text_len, struct relative_path_text *part);

/* Hands out `text` whole, as a relative path, or returns RELATIVE_PATH_NON_RELATIVE if it begins with a slash. */
uint32_t relative_path_unix_view(const char *text, size_t text_len, struct relative_path_text *part);

/* Writes the components of `text`, without any ".", joined by single slashes, or returns RELATIVE_PATH_NON_RELATIVE if
   `text` begins with a slash. `text_len` bytes always suffice. Allocates. */
struct relative_path_written relative_path_unix_from_path(const char *text, size_t text_len, char *out, size_t out_len);

/* Writes `base` followed by the text of each component of `text`. `base_len + 1 + text_len` bytes always suffice.
   Allocates. */
struct relative_path_written relative_path_unix_to_path(const char *text, size_t text_len, const char *base, size_t base_len, char *out, size_t out_len);

/* Writes the platform path where `text` leads from `base`. `base_len + 1 + text_len` bytes always suffice. Allocates. */
struct relative_path_written relative_path_unix_to_logical_path(const char *text, size_t text_len, const char *base, size_t base_len, char *out, size_t out_len);

/* Writes the relative path from `root` to `text`, or returns RELATIVE_PATH_PREFIX_MISMATCH or
   RELATIVE_PATH_AMBIGUOUS_TRAVERSAL. `2 * root_len + 1 + text_len` bytes always suffice. Allocates. */
struct relative_path_written relative_path_unix_relative_to(const char *text, size_t text_len, const char *root, size_t root_len, char *out, size_t out_len);

#ifdef __cplusplus
}
#endif

#endif
