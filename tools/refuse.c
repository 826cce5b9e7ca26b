/* tools/refusals preloads this library. It makes requests for memory fail, and writes each that it counts.
 *
 * REFUSE is N, for request number N alone, or N.., for request number N and all after it. REFUSE_MARKED
 * is set for a test: then the library counts the requests between the test's marks, and otherwise those
 * of the whole program.
 *
 * For each request it writes a character and the number of bytes to the file descriptor REFUSE_TELLS:
 * `.24` if 24 bytes were granted, `x24` if the request failed. For the mark after a call, and at the end
 * of a whole program, it writes `!` if the call reported a failed allocation, and otherwise `=`; then
 * how many more blocks are held than at the beginning: `=1` for a call that returns a text.
 *
 * It includes no header, so that it compiles on a machine without headers. */

typedef unsigned long size;

extern void *__libc_malloc(size);
extern void *__libc_realloc(void *, size);
extern void __libc_free(void *);
extern char *getenv(const char *);
extern long write(int, const void *, size);

/* The sizes of the marks, as the tests have them. */
enum { BEGIN = 1000003, END_REFUSED = 1000033, END_ANSWERED = 1000037 };

static int to;                /* the file descriptor */
static unsigned long refused; /* the number of the first request that fails */
static int and_on;            /* whether those after it fail too */
static int counts;            /* whether requests are counted now */
static unsigned long seen;    /* how many were counted */
static long held;             /* how many more blocks are held than at the beginning */

static void tell(char what, long number) {
  char text[24], *at = text + sizeof text;
  int is_negative = number < 0;
  size left = (size)(is_negative ? -number : number);
  do *--at = (char)('0' + left % 10);
  while (left /= 10);
  if (is_negative) *--at = '-';
  *--at = what;
  (void)!write(to, at, (size)(text + sizeof text - at));
}

/* Reads a number, and leaves the text at what stands after it. */
static unsigned long number(const char **at) {
  unsigned long read = 0;
  while (**at >= '0' && **at <= '9') read = read * 10 + (unsigned long)(*(*at)++ - '0');
  return read;
}

__attribute__((constructor)) static void start(void) {
  const char *tells = getenv("REFUSE_TELLS"), *refuse = getenv("REFUSE");
  if (!tells || !refuse) return;
  to = (int)number(&tells);
  refused = number(&refuse);
  and_on = *refuse == '.';
  counts = !getenv("REFUSE_MARKED");
}

__attribute__((destructor)) static void end(void) {
  if (counts) tell('=', held);
}

static int is_mark(size bytes) {
  if (bytes != BEGIN && bytes != END_REFUSED && bytes != END_ANSWERED) return 0;
  if (bytes != BEGIN) tell(bytes == END_REFUSED ? '!' : '=', held);
  counts = bytes == BEGIN;
  held = 0;
  return 1;
}

/* The mark of a refused call is refused too: by this its test sees that memory was refused to it. */
static int is_granted(size bytes) {
  if (is_mark(bytes)) return bytes != END_REFUSED;
  if (!counts) return 1;
  seen++;
  int is_refused = refused && (seen == refused || (and_on && seen > refused));
  tell(is_refused ? 'x' : '.', (long)bytes);
  return !is_refused;
}

/* The mark that begins a call is a block too, given back after it. */
void *malloc(size bytes) {
  if (!is_granted(bytes)) return 0;
  held += counts;
  return __libc_malloc(bytes);
}

void *realloc(void *old, size bytes) {
  if (!is_granted(bytes)) return 0;
  held += counts && !old;
  return __libc_realloc(old, bytes);
}

void free(void *old) {
  held -= counts && old;
  __libc_free(old);
}
