/* Lets calls of the C library fail in a program that it is preloaded into, and records what is written to files.

   tests/faulty.py compiles it, and maps the same state: which call fails, how, and how many calls there were.
   A sync does nothing, since no test here stops the machine: what is written stays when the program is killed.
   It takes no header, so that a compiler alone builds it; the numbers are those of Linux on x86-64. */
typedef unsigned long size_t;

enum { SYS_write = 1, SYS_close = 3, SYS_mmap = 9, SYS_pread64 = 17, SYS_pwrite64 = 18, SYS_getpid = 39, SYS_sendto = 44 };
enum { SYS_recvfrom = 45, SYS_kill = 62, SYS_ftruncate = 77, SYS_rename = 82, SYS_unlink = 87, SYS_symlink = 88, SYS_clock_gettime = 228, SYS_openat = 257 };
enum { O_WRONLY = 1, O_RDWR = 2, O_CREAT = 0100, O_APPEND = 02000, O_CLOEXEC = 02000000, HERE = -100 };
enum { EIO = 5, ENOMEM = 12, EINVAL = 22, ENOSPC = 28, EPIPE = 32, ECONNRESET = 104, SIGKILL = 9 };
enum { PROT_READ_WRITE = 3, MAP_SHARED = 1, MSG_PEEK = 2, STDOUT = 1 };

long syscall(long, ...);
int *__errno_location(void);
char *getenv(const char *);
void abort(void);
size_t malloc_usable_size(void *), strlen(const char *);
void *__libc_malloc(size_t), *__libc_realloc(void *, size_t), *__libc_calloc(size_t, size_t);

#define errno (*__errno_location())

/* The fields' order is that of FIELDS in tests/faulty.py. */
struct state {
    volatile long armed;
    /* The growth of memory of this number (from 0) is refused, and each behind it where `lasting` isn't 0; the
       growths seen, and those refused. */
    volatile long growth, growths, refused, lasting;
    /* The call of this number that writes, cuts, syncs or names a file meets `how`; the calls seen, and those met. */
    volatile long call, calls, met, how;
    /* The read of a socket of this number fails; the reads seen; the most bytes that one gives, 0 for any. */
    volatile long receive, receives, receive_most;
    /* The same of the writes to a socket; the one that fails takes nothing where `send_zero` isn't 0. */
    volatile long send, sends, send_most, send_zero;
    /* Where it isn't 0, the clock fails, or gives a time before 1970. */
    volatile long clock;
    /* The read of a file of this number fails, and each behind it where `file_read_once` is 0; the reads seen. */
    volatile long file_read, file_reads, file_read_once;
};

enum { KILL = 1, TORN, ONCE, ON, SHORT, FULL };
enum { FAILS = 1, EARLY };

static struct state *state;
static int record = -1;

__attribute__((constructor)) static void begin(void) {
    const char *path = getenv("WGR_FAULTY");
    if (!path) return;
    long file = syscall(SYS_openat, HERE, path, O_RDWR | O_CLOEXEC, 0);
    long map = syscall(SYS_mmap, 0L, sizeof *state, (long)PROT_READ_WRITE, (long)MAP_SHARED, file, 0L);
    if (file < 0 || map == -1) abort();
    syscall(SYS_close, file);
    path = getenv("WGR_RECORD");
    if (path) record = syscall(SYS_openat, HERE, path, O_WRONLY | O_CREAT | O_APPEND | O_CLOEXEC, 0600);
    state = (struct state *)map;
}

/* Memory */

static int refused(void) {
    if (!state || !state->armed) return 0;
    long now = state->growths++;
    if (state->growth < 0 || now < state->growth || (now > state->growth && !state->lasting)) return 0;
    state->refused++;
    errno = ENOMEM;
    return 1;
}

void *malloc(size_t size) { return refused() ? 0 : __libc_malloc(size); }

void *calloc(size_t count, size_t size) { return refused() ? 0 : __libc_calloc(count, size); }

/* A realloc to less is no growth. */
void *realloc(void *old, size_t size) {
    int grows = !old || size > malloc_usable_size(old);
    return grows && refused() ? 0 : __libc_realloc(old, size);
}

/* Files */

/* A kind, the number of the open file, an offset or a length, and so many bytes. */
static void note(char kind, long file, long place, const void *bytes, long length) {
    long head[4] = {kind, file, place, length};
    if (record < 0 || !state->armed) return;
    if (syscall(SYS_write, record, head, sizeof head) != sizeof head) abort();
    if (length && syscall(SYS_write, record, bytes, length) != length) abort();
}

static void stop(void) {
    syscall(SYS_kill, syscall(SYS_getpid), SIGKILL);
    for (;;) continue;
}

/* What the next call that writes, cuts, syncs or names a file meets, or 0. */
static int meets(void) {
    if (!state || !state->armed) return 0;
    long now = state->calls++, how = state->how;
    if (state->call < 0 || now < state->call) return 0;
    if (now > state->call && how != ON && how != FULL) return 0;
    state->met++;
    if (how == KILL) stop();
    if (how == FULL && now > state->call) return ON;
    return how;
}

static int fails(int how, int error) {
    if (how != ONCE && how != ON) return 0;
    errno = error;
    return 1;
}

long pwrite(int file, const void *bytes, size_t length, long place) {
    int how = meets();
    size_t half = length > 1 ? length / 2 : length;
    if (fails(how, ENOSPC)) return -1;
    if (how) length = half;
    long done = syscall(SYS_pwrite64, file, bytes, length, place);
    if (how == TORN) stop();
    if (done > 0) note('w', file, place, bytes, done);
    return done;
}

long pread(int file, void *bytes, size_t length, long place) {
    if (state && state->armed) {
        long now = state->file_reads++;
        long wanted = state->file_read;
        if (wanted >= 0 && (state->file_read_once ? now == wanted : now >= wanted)) {
            errno = EIO;
            return -1;
        }
    }
    return syscall(SYS_pread64, file, bytes, length, place);
}

int ftruncate(int file, long length) {
    int how = meets();
    if (fails(how, EIO)) return -1;
    int done = syscall(SYS_ftruncate, file, length);
    if (how == TORN) stop();
    note('t', file, length, 0, 0);
    return done;
}

static int synced(int file) {
    int how = meets();
    if (fails(how, EIO)) return -1;
    if (how == TORN) stop();
    note('s', file, 0, 0, 0);
    return 0;
}

/* A name that is made, changed or taken away is a call like a write. */
static int named(long call, const char *path, const char *other) {
    int how = meets();
    if (fails(how, EIO)) return -1;
    long done = syscall(call, path, other);
    if (how == TORN) stop();
    return done;
}

int rename(const char *path, const char *other) { return named(SYS_rename, path, other); }

int symlink(const char *path, const char *other) { return named(SYS_symlink, path, other); }

int unlink(const char *path) { return named(SYS_unlink, path, 0); }

int fsync(int file) { return synced(file); }

int fdatasync(int file) { return synced(file); }

int open(const char *path, int flags, int mode) {
    int file = syscall(SYS_openat, HERE, path, flags, mode);
    if (file >= 0) note('o', file, 0, path, strlen(path));
    return file;
}

/* What is told is noted too, since it comes before or after a write. */
long write(int file, const void *bytes, size_t length) {
    long done = syscall(SYS_write, file, bytes, length);
    if (file == STDOUT && done > 0) note('a', file, 0, bytes, done);
    return done;
}

/* Sockets */

long recv(int link, void *bytes, size_t length, int flags) {
    /* Looking at the first byte takes nothing. */
    if (state && state->armed && !(flags & MSG_PEEK)) {
        if (state->receives++ == state->receive) {
            errno = ECONNRESET;
            return -1;
        }
        if (state->receive_most && length > (size_t)state->receive_most) length = state->receive_most;
    }
    return syscall(SYS_recvfrom, link, bytes, length, flags, 0L, 0L);
}

long send(int link, const void *bytes, size_t length, int flags) {
    if (state && state->armed) {
        if (state->sends++ == state->send) {
            errno = EPIPE;
            return state->send_zero ? 0 : -1;
        }
        if (state->send_most && length > (size_t)state->send_most) length = state->send_most;
    }
    long done = syscall(SYS_sendto, link, bytes, length, flags, 0L, 0L);
    if (done > 0) note('a', link, 0, bytes, done);
    return done;
}

/* The clock */

struct time {
    long seconds, nanoseconds;
};

int clock_gettime(int clock, struct time *time) {
    if (state && state->armed && state->clock == FAILS) {
        errno = EINVAL;
        return -1;
    }
    if (syscall(SYS_clock_gettime, clock, time)) return -1;
    if (state && state->armed && state->clock == EARLY) time->seconds = -7;
    return 0;
}
