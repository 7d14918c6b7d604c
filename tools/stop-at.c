// Kills the process at one of its calls that write, sync or cut a file, or lets that call fail. tools/kill-test
// compiles this as a library and has the program load it before the C library.
//
// STOP_AT is the number of the call, counted from 1, and STOP_HOW is `before` or `after` (killed there), `half` (killed
// when half of the bytes are written), `full` (half of the bytes are written, and no byte of any later call: the disk
// is full) or `fails` (an error of the disk). The file STOP_LOG gets a letter of each call: w, s or c, and f where a
// folder is synced.
//
// No header is included, since the kit's compiler has none: what follows is that of Linux on x86-64.
enum { SIGKILL = 9, EIO = 5, ENOSPC = 28 };
enum { O_RDONLY = 0, O_WRONLY = 1, O_APPEND = 02000, O_DIRECTORY = 0200000, O_CLOEXEC = 02000000 };
enum { SYS_write = 1, SYS_pwrite64 = 18, SYS_fsync = 74, SYS_fdatasync = 75, SYS_ftruncate = 77 };

int *__errno_location(void);
int raise(int), open(const char *, int, ...), openat(int, const char *, int, ...), close(int);
int strcmp(const char *, const char *);
long atol(const char *), syscall(long, ...);
char *getenv(const char *);

static int full;

// How a call is to end, which is counted here: a word of STOP_HOW, or none.
static const char *how(const char *letter) {
  static long calls;
  int log = open(getenv("STOP_LOG"), O_WRONLY | O_APPEND | O_CLOEXEC);
  syscall(SYS_write, log, letter, 1UL);
  close(log);
  calls++;
  return calls == atol(getenv("STOP_AT")) ? getenv("STOP_HOW") : "";
}

static int is(const char *way, const char *word) { return strcmp(way, word) == 0; }

static long failed(int error) {
  *__errno_location() = error;
  return -1;
}

// Makes a call of no bytes as it is to end.
static long stopped(const char *letter, long number, int file, long len) {
  const char *way = how(letter);
  if (is(way, "before") || is(way, "half")) raise(SIGKILL);
  if (is(way, "full")) return failed(ENOSPC);
  if (is(way, "fails")) return failed(EIO);
  long answer = syscall(number, file, len);
  if (is(way, "after")) raise(SIGKILL);
  return answer;
}

long pwrite(int file, const void *bytes, unsigned long len, long at) {
  if (full) return failed(ENOSPC);
  const char *way = how("w");
  full = is(way, "full");
  if (is(way, "before")) raise(SIGKILL);
  if (is(way, "fails")) return failed(EIO);
  if (is(way, "half") || full) len /= 2;
  if (full && len == 0) return failed(ENOSPC);
  long answer = syscall(SYS_pwrite64, file, bytes, len, at);
  if (is(way, "half") || is(way, "after")) raise(SIGKILL);
  return answer;
}

long pwrite64(int file, const void *bytes, unsigned long len, long at) { return pwrite(file, bytes, len, at); }

static const char *letter_of_sync(int file) {
  int folder = openat(file, ".", O_RDONLY | O_DIRECTORY | O_CLOEXEC);
  if (folder < 0) return "s";
  close(folder);
  return "f";
}

int fsync(int file) { return stopped(letter_of_sync(file), SYS_fsync, file, 0); }

int fdatasync(int file) { return stopped(letter_of_sync(file), SYS_fdatasync, file, 0); }

int ftruncate(int file, long len) { return stopped("c", SYS_ftruncate, file, len); }

int ftruncate64(int file, long len) { return ftruncate(file, len); }
