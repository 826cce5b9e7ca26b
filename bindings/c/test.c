/*
 * Tests the library from C, under the address sanitizer: test STDIN STDOUT
 *
 * The two files are the stored lines of crates/conformance: calls, and what the original crate returns for each. The other
 * tests make calls on damaged bytes, on short texts, with memory that is too short or too long, and without the memory that
 * the library asks for. Every text and every piece of memory is allocated at its exact length, so that the sanitizer sees a
 * copy that goes outside it, and valgrind every access. The linker's options `--wrap=malloc`, `--wrap=realloc` and
 * `--wrap=free` give the library the allocator of this file. The last line is `N passed, M failed`.
 */
#include "relative_path.h"

#include <stdio.h>
#include <stdlib.h>
#include <string.h>

enum { MOST_FIELDS = 64, LONGEST = 1 << 16, TEXTS = 200 };

typedef struct relative_path_text text;
typedef struct relative_path_written written;

/* A call that writes a text that it makes of two. */
typedef written (*writes)(const char *, size_t, const char *, size_t, char *, size_t);

/* A call that hands out a part of a text. */
typedef uint32_t (*hands_out)(const char *, size_t, text *);

/* A call that answers a question about two texts. */
typedef struct relative_path_answer (*answers)(const char *, size_t, const char *, size_t);

static long passed, failed;

static void check(bool holds, const char *what, text of)
{
    if (holds) {
        passed++;
        return;
    }
    failed++;
    printf("test.c: %s: %.*s\n", what, (int)of.len, of.at);
}

/* Copies a text to memory of its exact length. */
static text copy(text of)
{
    char *at = malloc(of.len);
    if (!at)
        abort();
    memcpy(at, of.at, of.len);
    return (text){at, of.len};
}

static void drop(text of)
{
    free((char *)of.at);
}

static bool same(text a, text b)
{
    return a.len == b.len && !memcmp(a.at, b.at, a.len);
}

static bool is(text of, const char *word)
{
    return same(of, (text){word, strlen(word)});
}

/* ---- the allocator */

void *__real_malloc(size_t size);
void *__real_realloc(void *old, size_t size);
void __real_free(void *old);

/* The requests for memory of the call that is being made. */
static struct {
    bool counts, and_on;  /* whether requests are counted now; whether all requests from `refused` on fail */
    size_t seen, refused; /* how many were counted; the number of the first that fails, or 0 */
    long held;            /* how many blocks the call holds */
} requests;

static bool is_granted(void)
{
    if (!requests.counts)
        return true;
    requests.seen++;
    return !requests.refused || (requests.and_on ? requests.seen < requests.refused : requests.seen != requests.refused);
}

void *__wrap_malloc(size_t size)
{
    if (!is_granted())
        return NULL;
    requests.held += requests.counts;
    return __real_malloc(size);
}

void *__wrap_realloc(void *old, size_t size)
{
    if (!is_granted())
        return NULL;
    requests.held += requests.counts && !old;
    return __real_realloc(old, size);
}

void __wrap_free(void *old)
{
    requests.held -= requests.counts && old;
    __real_free(old);
}

/* Begins to count requests, and lets request `refused` fail, alone or with all after it. None fails if `refused` is 0. */
static void count_requests(size_t refused, bool and_on)
{
    requests.counts = true;
    requests.and_on = and_on;
    requests.seen = 0;
    requests.refused = refused;
    requests.held = 0;
}

/* Stops counting. Returns how many requests there were. */
static size_t stop_counting(void)
{
    requests.counts = false;
    return requests.seen;
}

/* ---- the calls, by their names */

static written normalize(const char *at, size_t len, const char *other, size_t other_len, char *out, size_t room)
{
    (void)other, (void)other_len;
    return relative_path_normalize(at, len, out, room);
}

static written from_path(const char *at, size_t len, const char *other, size_t other_len, char *out, size_t room)
{
    (void)other, (void)other_len;
    return relative_path_unix_from_path(at, len, out, room);
}

/* Pushes onto a copy of the text in the memory, if the memory has room for the text. */
static written push(const char *at, size_t len, const char *other, size_t other_len, char *out, size_t room)
{
    if (room < len)
        return (written){RELATIVE_PATH_NO_ROOM, len};
    memcpy(out, at, len);
    return relative_path_push(out, room, len, other, other_len);
}

static written set_extension(const char *at, size_t len, const char *other, size_t other_len, char *out, size_t room)
{
    if (room < len)
        return (written){RELATIVE_PATH_NO_ROOM, len};
    memcpy(out, at, len);
    return relative_path_set_extension(out, room, len, other, other_len);
}

static const struct {
    const char *name;
    writes call;
    bool takes_two, in_place;
} WRITES[] = {
    {"normalize", normalize, false, false},
    {"from_path_owned", from_path, false, false},
    {"join", relative_path_join, true, false},
    {"join_normalized", relative_path_join_normalized, true, false},
    {"relative", relative_path_relative, true, false},
    {"with_file_name", relative_path_with_file_name, true, false},
    {"set_file_name", relative_path_with_file_name, true, false},
    {"with_extension", relative_path_with_extension, true, false},
    {"to_path", relative_path_unix_to_path, true, false},
    {"to_logical_path", relative_path_unix_to_logical_path, true, false},
    {"relative_to", relative_path_unix_relative_to, true, false},
    {"try_relative", relative_path_try_relative, true, false},
    {"push", push, true, true},
    {"set_extension", set_extension, true, true},
};

enum { CALLS = sizeof WRITES / sizeof *WRITES };

static const struct {
    const char *name;
    hands_out call;
} PARTS[] = {
    {"parent", relative_path_parent},
    {"file_name", relative_path_file_name},
    {"file_stem", relative_path_file_stem},
    {"extension", relative_path_extension},
    {"from_path", relative_path_unix_view},
    {"parent_text", relative_path_unix_parent_text},
};

static const struct {
    const char *name;
    answers call;
} QUESTIONS[] = {
    {"starts_with", relative_path_starts_with},
    {"ends_with", relative_path_ends_with},
    {"eq", relative_path_eq},
};

#define EACH(table) (size_t i = 0; i < sizeof table / sizeof *table; i++)

/* ---- the stored lines */

/* A result, written out as the stored lines write it. */
static char shown[LONGEST];
static size_t shown_len;

static void show(text of)
{
    if (of.len > sizeof shown - shown_len)
        abort();
    memcpy(shown + shown_len, of.at, of.len);
    shown_len += of.len;
}

static void show_word(const char *word)
{
    show((text){word, strlen(word)});
}

/* The words of an error, as the original crate prints it; null for a status that is no error. */
static const char *error_words(uint32_t status)
{
    switch (status) {
    case RELATIVE_PATH_NON_RELATIVE:
        return "! path contains non-relative component";
    case RELATIVE_PATH_PREFIX_MISMATCH:
        return "! paths contain different absolute prefixes";
    case RELATIVE_PATH_AMBIGUOUS_TRAVERSAL:
        return "! path traversal cannot be determined";
    default:
        return NULL;
    }
}

static void show_component(uint32_t kind, text part)
{
    switch (kind) {
    case RELATIVE_PATH_NO_COMPONENT:
        show_word("none");
        break;
    case RELATIVE_PATH_CUR_DIR:
        show_word("CurDir");
        break;
    case RELATIVE_PATH_PARENT_DIR:
        show_word("ParentDir");
        break;
    default:
        show_word("Normal:");
        show(part);
    }
}

/* Walks over all components from one end. */
static void show_walk(text path, bool from_front)
{
    struct relative_path_walk walk;
    text part = {"", 0};
    check(relative_path_components(path.at, path.len, &walk) == RELATIVE_PATH_DONE, "components", path);
    show_word("= ");
    for (bool first = true;; first = false) {
        uint32_t kind = from_front ? relative_path_next(&walk, &part) : relative_path_next_back(&walk, &part);
        if (kind == RELATIVE_PATH_NO_COMPONENT)
            return;
        if (!first)
            show_word("\t");
        show_component(kind, part);
    }
}

static bool are_steps(text of)
{
    for (size_t i = 0; i < of.len; i++)
        if (of.at[i] != 'F' && of.at[i] != 'B')
            return false;
    return true;
}

/* Takes a step for each letter, F from the front and B from the back. */
static void show_steps(text path, text steps)
{
    struct relative_path_walk walk;
    text part = {"", 0};
    check(relative_path_components(path.at, path.len, &walk) == RELATIVE_PATH_DONE, "components", path);
    show_word("= ");
    for (size_t i = 0; i < steps.len; i++) {
        uint32_t kind = steps.at[i] == 'F' ? relative_path_next(&walk, &part) : relative_path_next_back(&walk, &part);
        if (i)
            show_word("\t");
        show_component(kind, part);
        show_word("\t");
        show(walk.left);
    }
}

static void show_written(writes call, text path, text other, size_t room)
{
    char *out = malloc(room);
    if (!out)
        abort();
    written made = call(path.at, path.len, other.at, other.len, out, room);
    if (made.status == RELATIVE_PATH_DONE) {
        show_word("= ");
        show((text){out, made.len});
    } else if (error_words(made.status)) {
        show_word(error_words(made.status));
    }
    free(out);
}

static void show_part(hands_out call, text path, bool borrows)
{
    text part;
    uint32_t status = call(path.at, path.len, &part);
    if (status == RELATIVE_PATH_DONE) {
        show_word(borrows ? "= " : "= some ");
        show(part);
    } else {
        show_word(status == RELATIVE_PATH_ABSENT ? "= none" : error_words(status));
    }
}

/* Shows the result of a call; returns false for a line that isn't one. */
static bool show_result(const text *fields, size_t count)
{
    text path = fields[1];
    text other = count > 2 ? fields[2] : (text){"", 0};
    for EACH (WRITES)
        if (is(fields[0], WRITES[i].name) && count == (WRITES[i].takes_two ? 3 : 2)) {
            if (WRITES[i].call == set_extension)
                return false; /* its line shows the text after a refusal too */
            show_written(WRITES[i].call, path, other, 3 * path.len + 3 * other.len + 3);
            return true;
        }
    for EACH (PARTS)
        if (is(fields[0], PARTS[i].name) && count == 2) {
            show_part(PARTS[i].call, path, PARTS[i].call == relative_path_unix_view);
            return true;
        }
    for EACH (QUESTIONS)
        if (is(fields[0], QUESTIONS[i].name) && count == 3) {
            struct relative_path_answer answer = QUESTIONS[i].call(path.at, path.len, other.at, other.len);
            show_word(answer.status != RELATIVE_PATH_DONE ? "" : answer.yes ? "= true" : "= false");
            return true;
        }
    if (is(fields[0], "is_normalized") && count == 2) {
        show_word(relative_path_is_normalized(path.at, path.len).yes ? "= true" : "= false");
        return true;
    }
    if (is(fields[0], "cmp") && count == 3) {
        static const char *const orders[] = {"= Less", "= Equal", "= Greater"};
        show_word(orders[relative_path_cmp(path.at, path.len, other.at, other.len).order]);
        return true;
    }
    if (is(fields[0], "strip_prefix") && count == 3) {
        text part;
        uint32_t status = relative_path_strip_prefix(path.at, path.len, other.at, other.len, &part);
        show_word(status == RELATIVE_PATH_DONE ? "= " : "! StripPrefixError");
        if (status == RELATIVE_PATH_DONE)
            show(part);
        return true;
    }
    if ((is(fields[0], "components") || is(fields[0], "components_back")) && count == 2) {
        show_walk(path, is(fields[0], "components"));
        return true;
    }
    if (is(fields[0], "walk") && count == 3 && are_steps(other)) {
        show_steps(path, other);
        return true;
    }
    return false;
}

/* Cuts a text at the first byte of that kind; returns what stands before it. */
static text cut(text *left, char byte)
{
    const char *end = memchr(left->at, byte, left->len);
    text before = {left->at, end ? (size_t)(end - left->at) : left->len};
    size_t gone = before.len + (end ? 1 : 0);
    left->at += gone;
    left->len -= gone;
    return before;
}

static void compare_line(text line, text wanted)
{
    text fields[MOST_FIELDS];
    size_t count = 0;
    for (text left = line; count < MOST_FIELDS;) {
        bool more = memchr(left.at, '\t', left.len) != NULL;
        fields[count++] = copy(cut(&left, '\t'));
        if (!more)
            break;
    }
    shown_len = 0;
    if (count > 1 && show_result(fields, count))
        check(same((text){shown, shown_len}, wanted), "another result than the original crate's", line);
    while (count)
        drop(fields[--count]);
}

static text read_file(const char *path)
{
    FILE *file = fopen(path, "rb");
    if (!file || fseek(file, 0, SEEK_END))
        abort();
    size_t len = (size_t)ftell(file);
    char *at = malloc(len);
    rewind(file);
    if (!at || fread(at, 1, len, file) != len)
        abort();
    fclose(file);
    return (text){at, len};
}

/* ---- damaged bytes */

/* Returns how many bytes of a character follow its first byte, and which second bytes may follow; -1 for no first byte. */
static int bytes_after(unsigned char first, unsigned char *least, unsigned char *most)
{
    *least = first == 0xE0 ? 0xA0 : first == 0xF0 ? 0x90 : 0x80;
    *most = first == 0xED ? 0x9F : first == 0xF4 ? 0x8F : 0xBF;
    if (first < 0x80)
        return 0;
    if (first >= 0xC2 && first < 0xE0)
        return 1;
    if (first >= 0xE0 && first < 0xF0)
        return 2;
    return first >= 0xF0 && first < 0xF5 ? 3 : -1;
}

static bool is_utf8(text of)
{
    for (size_t i = 0; i < of.len;) {
        unsigned char least, most;
        int after = bytes_after((unsigned char)of.at[i++], &least, &most);
        if (after < 0)
            return false;
        for (; after; after--, i++, least = 0x80, most = 0xBF)
            if (i == of.len || (unsigned char)of.at[i] < least || (unsigned char)of.at[i] > most)
                return false;
    }
    return true;
}

static bool lies_in(text part, text whole)
{
    return part.at >= whole.at && part.at + part.len <= whole.at + whole.len;
}

/* Makes each call on bytes that may not be UTF-8: the status says whether they are, and each part lies in them. */
static void call_all(text bytes)
{
    bool utf8 = is_utf8(bytes), right = true;
    size_t room = 3 * bytes.len + 8;
    text of = copy(bytes), a = copy((text){"a", 1}), part;
    char *out = malloc(room);
    if (!out)
        abort();
    for EACH (WRITES) {
        written made = WRITES[i].call(of.at, of.len, a.at, a.len, out, room);
        right &= (made.status == RELATIVE_PATH_NOT_UTF8) == !utf8;
        right &= made.status != RELATIVE_PATH_DONE || is_utf8((text){out, made.len});
        made = WRITES[i].call(a.at, a.len, of.at, of.len, out, room);
        right &= !WRITES[i].takes_two || (made.status == RELATIVE_PATH_NOT_UTF8) == !utf8
            || made.status == RELATIVE_PATH_PREFIX_MISMATCH;
    }
    for EACH (PARTS) {
        part = of;
        uint32_t status = PARTS[i].call(of.at, of.len, &part);
        right &= (status == RELATIVE_PATH_NOT_UTF8) == !utf8 && lies_in(part, of) && (!utf8 || is_utf8(part));
    }
    for EACH (QUESTIONS) {
        right &= (QUESTIONS[i].call(of.at, of.len, a.at, a.len).status == RELATIVE_PATH_NOT_UTF8) == !utf8;
        right &= (QUESTIONS[i].call(a.at, a.len, of.at, of.len).status == RELATIVE_PATH_NOT_UTF8) == !utf8;
    }
    right &= (relative_path_is_normalized(of.at, of.len).status == RELATIVE_PATH_NOT_UTF8) == !utf8;
    right &= (relative_path_cmp(a.at, a.len, of.at, of.len).status == RELATIVE_PATH_NOT_UTF8) == !utf8;
    right &= (relative_path_climb(of.at, of.len).status == RELATIVE_PATH_NOT_UTF8) == !utf8;
    right &= (relative_path_leads_apart(of.at, of.len, a.at, a.len).status == RELATIVE_PATH_NOT_UTF8) == !utf8;
    right &= (relative_path_strip_prefix(of.at, of.len, a.at, a.len, &part) == RELATIVE_PATH_NOT_UTF8) == !utf8;
    struct relative_path_walk walk;
    right &= (relative_path_components(of.at, of.len, &walk) == RELATIVE_PATH_NOT_UTF8) == !utf8;
    while (utf8 && relative_path_next(&walk, &part) != RELATIVE_PATH_NO_COMPONENT)
        right &= lies_in(walk.left, of) && is_utf8(walk.left);
    check(right, "a status, a part or a text is wrong", of);
    free(out);
    drop(of);
    drop(a);
}

/* Puts every byte at every place of a text. */
static void damage(text of)
{
    char bytes[64];
    if (of.len > sizeof bytes)
        return;
    for (size_t place = 0; place < of.len; place++)
        for (int byte = 0; byte < 256; byte++) {
            memcpy(bytes, of.at, of.len);
            bytes[place] = (char)byte;
            call_all((text){bytes, of.len});
        }
}

/* ---- memory that is too short */

/* Gives each call just enough memory, and then one byte less: it says how many bytes it needs, and writes none. */
static void shorten(text path, text other)
{
    static char enough[LONGEST], before[LONGEST], after[LONGEST];
    for EACH (WRITES) {
        written whole = WRITES[i].call(path.at, path.len, other.at, other.len, enough, sizeof enough);
        if (whole.status != RELATIVE_PATH_DONE)
            continue;
        char *out = malloc(whole.len);
        written made = WRITES[i].call(path.at, path.len, other.at, other.len, out, whole.len);
        if (!WRITES[i].in_place || path.len <= whole.len)
            check(made.status == RELATIVE_PATH_DONE && same((text){out, made.len}, (text){enough, whole.len}),
                  "just enough memory is refused", path);
        free(out);
        if (!whole.len || (WRITES[i].in_place && path.len >= whole.len))
            continue;
        size_t room = whole.len - 1;
        char *less = malloc(room);
        memset(less, 'x', room);
        memset(before, 'x', room);
        if (WRITES[i].in_place)
            memcpy(before, path.at, path.len);
        made = WRITES[i].call(path.at, path.len, other.at, other.len, less, room);
        memcpy(after, less, room);
        check(made.status == RELATIVE_PATH_NO_ROOM && made.len == whole.len && !memcmp(before, after, room),
              "one byte less than enough", path);
        free(less);
    }
}

/* ---- memory that is too long */

/* Gives each call more memory than it needs: it leaves the bytes after the text as they were, but for `normalize`, which may
   change as many bytes as the path has. */
static void lengthen(text path, text other)
{
    size_t room = 3 * path.len + 3 * other.len + 40;
    char *out = malloc(room), *before = malloc(room);
    if (!out || !before)
        abort();
    for EACH (WRITES) {
        memset(out, 'x', room);
        memset(before, 'x', room);
        if (WRITES[i].in_place)
            memcpy(before, path.at, path.len);
        written made = WRITES[i].call(path.at, path.len, other.at, other.len, out, room);
        size_t end = made.status != RELATIVE_PATH_DONE ? 0 : made.len;
        if (WRITES[i].call == normalize && end < path.len)
            end = path.len;
        check(!memcmp(out + end, before + end, room - end), "a byte after the text is changed", path);
    }
    free(out);
    free(before);
}

/* ---- memory that is refused */

/* How often a call failed for a request. */
static size_t out_of_memory[CALLS], counts_out_of_memory;

/* Refuses each request of a call in turn, alone and with all after it. The call says so, leaves `out` as it was, and holds no
   block; `normalize` does without if `out` is as long as the path. */
static void refuse_each(size_t i, text path, text other, size_t room)
{
    bool does_without = WRITES[i].call == normalize && room >= path.len;
    char *wanted = malloc(room), *out = malloc(room), *before = malloc(room);
    if (!wanted || !out || !before)
        abort();
    memset(before, 'x', room);
    if (WRITES[i].in_place && path.len <= room)
        memcpy(before, path.at, path.len);
    count_requests(0, false);
    written whole = WRITES[i].call(path.at, path.len, other.at, other.len, wanted, room);
    size_t count = stop_counting();
    check(!requests.held, "a call holds memory", path);
    for (size_t n = 2; n < 2 * count + 2; n++) {
        memset(out, 'x', room);
        count_requests(n / 2, n % 2);
        written made = WRITES[i].call(path.at, path.len, other.at, other.len, out, room);
        stop_counting();
        check(!requests.held, "a call that is refused memory holds some", path);
        if (does_without) {
            check(made.status == whole.status && same((text){out, made.len}, (text){wanted, whole.len}),
                  "normalize doesn't do without memory", path);
            continue;
        }
        check(made.status == RELATIVE_PATH_OUT_OF_MEMORY && !memcmp(out, before, room), "a refused request is lost", path);
        out_of_memory[i]++;
    }
    free(wanted);
    free(out);
    free(before);
}

/* Refuses memory to each call, with memory for the text that is enough and too short. */
static void refuse(text path, text other)
{
    for EACH (WRITES) {
        refuse_each(i, path, other, 3 * path.len + 3 * other.len + 3);
        refuse_each(i, path, other, path.len ? path.len - 1 : 0);
    }
    count_requests(0, false);
    relative_path_leads_apart(path.at, path.len, other.at, other.len);
    size_t count = stop_counting();
    for (size_t n = 2; n < 2 * count + 2; n++) {
        count_requests(n / 2, n % 2);
        struct relative_path_count made = relative_path_leads_apart(path.at, path.len, other.at, other.len);
        stop_counting();
        check(made.status == RELATIVE_PATH_OUT_OF_MEMORY && !requests.held, "leads_apart without memory", path);
        counts_out_of_memory++;
    }
}

/* Compares which calls can fail for memory with what the header says of them: each but `push` allocates. */
static void compare_allocations(void)
{
    for EACH (WRITES)
        check((out_of_memory[i] > 0) == (WRITES[i].call != push), "the header says otherwise whether the call allocates",
              (text){WRITES[i].name, strlen(WRITES[i].name)});
    check(counts_out_of_memory > 0, "leads_apart allocates nothing", (text){"", 0});
}

/* Paths whose normal form is shorter, and made by two ways: for a path of fewer than 128 bytes, and for another. */
static const char *const NAMES_THAT_GO[] = {
    "name/../b",
    "a/name/../../..",
    "../a/long/name/../../../../a/long/name/../../../../a/long/name/../../../../a/long/name/../../../../a/long/name/../../.."
    "/../a/long/name/../../../../b",
};

static void vary_memory(text path, text other)
{
    shorten(path, other);
    lengthen(path, other);
    refuse(path, other);
}

int main(int count, char **arguments)
{
    if (count != 3)
        return 2;
    text all_lines = read_file(arguments[1]), all_results = read_file(arguments[2]);
    text lines = all_lines, results = all_results, texts[TEXTS];
    size_t found = 0;
    while (lines.len) {
        text line = cut(&lines, '\n');
        compare_line(line, cut(&results, '\n'));
        text left = line, command = cut(&left, '\t'), path = cut(&left, '\t');
        /* every eighth join has texts of many kinds */
        if (is(command, "join") && found < TEXTS && passed % 8 == 0 && path.len && path.len < 12)
            texts[found++] = path;
    }
    for (size_t i = 0; i < found; i++) {
        damage(texts[i]);
        vary_memory(texts[i], texts[(i + 7) % found]);
    }
    for EACH (NAMES_THAT_GO) {
        text path = copy((text){NAMES_THAT_GO[i], strlen(NAMES_THAT_GO[i])});
        vary_memory(path, texts[0]);
        drop(path);
    }
    compare_allocations();
    call_all((text){"", 0});
    for (int byte = 0; byte < 256; byte++)
        call_all((text){&(char){(char)byte}, 1});
    check(found == TEXTS, "fewer than 200 texts", (text){"", 0});
    free((char *)all_lines.at);
    free((char *)all_results.at);
    printf("%ld passed, %ld failed\n", passed, failed);
    return failed != 0;
}
