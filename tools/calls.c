/* tools/calls.py preloads this library. It counts the calls by which a program changes something in the file system,
 * writes a line for each, and lets one of them fail, or kills or holds the program there.
 *
 * CALLS_TELLS is the file descriptor for the lines. A line has the name of the call and its paths, with tabs between
 * them, and ends in NUL. A write and the other calls on an open file have the path by which the file was opened. Lines
 * that begin with `?` are of calls that change nothing and have a path; they aren't counted.
 *
 * CALLS_AT is N, for call number N alone, or N.., for call number N and all after it. CALLS_WAY says what becomes of
 * it:
 *
 *     undone         it isn't done, and reported as failed
 *     done           it is done, and reported as failed
 *     killed-before  the program is killed before it; a write has then written half of its bytes
 *     killed-after   the program is killed after it
 *     held-before    the program is stopped before it, until someone lets it go on
 *     held-after     the same, after it
 *
 * CALLS_HELD_AT is a path: the program is stopped before it opens this path for reading for the first time.
 *
 * It includes no header, so that it compiles on a machine without headers. The numbers are those of Linux. */

typedef unsigned long size;
typedef unsigned mode;

extern int *__errno_location(void);
extern void *dlsym(void *, const char *);
extern char *getenv(const char *);
extern int getpid(void);
extern int kill(int, int);
extern long readlink(const char *, char *, size);

enum { FAILED = 5 /* EIO */, KILLED = 9, STOPPED = 19 };  /* an error, and two signals */
enum { CREATE = 0100, CHANGES = 03 | CREATE | 01000 };    /* flags of open */
enum { NAME = 4200 };                                     /* more than a path has */

static int to;                /* the file descriptor */
static const char *way;       /* what becomes of the call */
static unsigned long first;   /* the number of the first call of which it becomes that */
static int and_on;            /* whether it becomes of those after it too */
static const char *held_at;   /* the path before whose opening the program is stopped */
static unsigned long counted; /* how many calls were counted */
static int is_turn;           /* whether the call now is one of which it becomes that */

static size length(const char *text) {
  size n = 0;
  while (text[n]) n++;
  return n;
}

static int is_same(const char *one, const char *other) {
  while (*one && *one == *other) one++, other++;
  return *one == *other;
}

/* Reads a number, and leaves the text at what stands after it. */
static unsigned long number(const char **at) {
  unsigned long read = 0;
  while (**at >= '0' && **at <= '9') read = read * 10 + (unsigned long)(*(*at)++ - '0');
  return read;
}

__attribute__((constructor)) static void start(void) {
  const char *tells = getenv("CALLS_TELLS"), *at = getenv("CALLS_AT");
  if (!tells) return;
  to = (int)number(&tells);
  way = getenv("CALLS_WAY");
  held_at = getenv("CALLS_HELD_AT");
  if (!at || !way) return;
  first = number(&at);
  and_on = *at == '.';
}

/* The next library's function of a name. */
static void *next(const char *name) {
  return dlsym((void *)-1L, name);
}

/* Writes a part of a line. */
static void tell(const char *text, size bytes) {
  static long (*real)(int, const void *, size);
  if (!real) real = next("write");
  int error = *__errno_location();
  if (to) (void)!real(to, text, bytes);
  *__errno_location() = error;
}

static void tell_line(const char *call, const char *path, const char *other) {
  tell(call, length(call));
  if (path) tell("\t", 1), tell(path, length(path));
  if (other) tell("\t", 1), tell(other, length(other));
  tell("", 1);
}

/* Whether something becomes of the call now, and this is it. */
static int becomes(const char *what) {
  return is_turn && is_same(way, what);
}

/* Counts a call. */
static void count(const char *call, const char *path, const char *other) {
  counted++;
  is_turn = first && (counted == first || (and_on && counted > first));
  tell_line(call, path, other);
}

/* Counts a call on an open file. */
static void count_open(const char *call, int file) {
  char link[32] = "/proc/self/fd/", digits[12], path[NAME];
  size at = length(link), n = 0;
  do digits[n++] = (char)('0' + file % 10);
  while (file /= 10);
  while (n) link[at++] = digits[--n];
  link[at] = 0;
  long read = readlink(link, path, NAME - 1);
  path[read < 0 ? 0 : read] = 0;
  count(call, path, 0);
}

/* Whether the call is done. Kills or stops the program before it. */
static int is_done(void) {
  if (becomes("killed-before")) kill(getpid(), KILLED);
  if (becomes("held-before")) kill(getpid(), STOPPED);
  return !becomes("undone");
}

static long fail(void) {
  *__errno_location() = FAILED;
  return -1;
}

/* The result of a call that was done. Kills or stops the program after it. */
static long end(long result) {
  int error = *__errno_location();
  if (becomes("killed-after")) kill(getpid(), KILLED);
  if (becomes("held-after")) kill(getpid(), STOPPED);
  *__errno_location() = error;
  return becomes("done") && result >= 0 ? fail() : result;
}

/* A call: its name, the way to count it, its parameters, and its arguments. */
#define CALL(name, counting, parameters, arguments)    \
  int name parameters {                                \
    int(*real) parameters = next(#name);               \
    counting;                                          \
    return (int)(is_done() ? end(real arguments) : fail()); \
  }
#define ON_PATH(name, parameters, arguments) CALL(name, count(#name, path, 0), parameters, arguments)
#define ON_PATHS(name) CALL(name, count(#name, from, path), (const char *from, const char *path), (from, path))
#define ON_OPEN(name, parameters, arguments) CALL(name, count_open(#name, file), parameters, arguments)

ON_PATHS(rename)
ON_PATHS(link)
ON_PATHS(symlink)
ON_PATH(unlink, (const char *path), (path))
ON_PATH(rmdir, (const char *path), (path))
ON_PATH(mkdir, (const char *path, mode bits), (path, bits))
ON_PATH(chmod, (const char *path, mode bits), (path, bits))
ON_PATH(chown, (const char *path, mode owner, mode group), (path, owner, group))
ON_PATH(lchown, (const char *path, mode owner, mode group), (path, owner, group))
ON_OPEN(fchmod, (int file, mode bits), (file, bits))
ON_OPEN(fchown, (int file, mode owner, mode group), (file, owner, group))
ON_OPEN(ftruncate, (int file, long bytes), (file, bytes))
ON_OPEN(fsync, (int file), (file))
ON_OPEN(fdatasync, (int file), (file))

/* Of the standard streams nothing is counted. */
long write(int file, const void *bytes, size count) {
  static long (*real)(int, const void *, size);
  if (!real) real = next("write");
  if (file < 3 || file == to) return real(file, bytes, count);
  count_open("write", file);
  if (becomes("killed-before")) (void)!real(file, bytes, count / 2);
  return is_done() ? end(real(file, bytes, count)) : fail();
}

/* Stops the program if it opens the path at which it is to be held. */
static void look(const char *call, const char *path) {
  tell_line(call, path, 0);
  if (!held_at || !is_same(path, held_at)) return;
  held_at = 0;
  kill(getpid(), STOPPED);
}

int open(const char *path, int flags, ...) {
  int (*real)(const char *, int, ...) = next("open");
  __builtin_va_list rest;
  __builtin_va_start(rest, flags);
  mode bits = flags & CREATE ? __builtin_va_arg(rest, mode) : 0;
  __builtin_va_end(rest);
  if (!(flags & CHANGES)) return look("?open", path), real(path, flags);
  count("open", path, 0);
  return (int)(is_done() ? end(real(path, flags, bits)) : fail());
}

int statx(int folder, const char *path, int flags, mode mask, void *found) {
  int (*real)(int, const char *, int, mode, void *) = next("statx");
  tell_line("?statx", path, 0);
  return real(folder, path, flags, mask, found);
}

int flock(int file, int operation) {
  int (*real)(int, int) = next("flock");
  tell_line("?flock", 0, 0);
  return real(file, operation);
}
