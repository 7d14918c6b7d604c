/* Refuses one request for memory of the program that this library is loaded into before all others (LD_PRELOAD): the
   one of the number REFUSED_REQUEST, counted from 1, and, where REFUSED_ALL is set, all after it too. It writes a byte
   to the descriptor REFUSED_TOLD for each. The program calls nothing of the C library that asks for memory itself, so
   that each request is its own. tools/memory-test compiles this; no header is included, since the kit's compiler has
   none. */
#define NULL ((void *)0)
typedef unsigned long size_t;

void *__libc_malloc(size_t), *__libc_calloc(size_t, size_t), *__libc_realloc(void *, size_t);
int atoi(const char *);
long atol(const char *), write(int, const void *, size_t);
char *getenv(const char *);

static long left;
static int told, all;

__attribute__((constructor)) static void begin(void) {
  all = getenv("REFUSED_ALL") != NULL;
  told = atoi(getenv("REFUSED_TOLD"));
  left = atol(getenv("REFUSED_REQUEST"));
}

static int refused(void) {
  if (left == 0) return 0;
  if (--left > 0) return 0;
  if (all) left = 1;
  return write(told, "", 1) == 1;
}

void *malloc(size_t len) { return refused() ? NULL : __libc_malloc(len); }
void *calloc(size_t count, size_t len) { return refused() ? NULL : __libc_calloc(count, len); }
void *realloc(void *old, size_t len) { return refused() ? NULL : __libc_realloc(old, len); }
