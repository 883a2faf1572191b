/* A library that is loaded before a program (LD_PRELOAD), and makes calls of it fail as the environment says.

   FAULT_GROWTH=n     the n-th call that asks for memory is refused, from 1
   FAULT_GROWTH_ON=n  so is each one from the n-th on
   FAULT_THREAD=n     the n-th start of a thread is refused
   FAULT_THREAD_AFTER=1  so is each start of a thread behind a refused growth
   FAULT_READ=n       the n-th read of standard input fails
   FAULT_WRITE=n      a write to standard output fails once n bytes are written; those are written first
   FAULT_ZERO=1       such a write takes no byte in place of failing
   FAULT_PIECE=n      each read and each write moves n bytes at most
   FAULT_INTERRUPT=n  each read and each write is interrupted n times first

   Where a call was refused or failed by one of these, a byte is written to the file descriptor 9. So whoever starts
   the program sees whether the fault was met. Only calls made after this library was initialised count. A program
   that takes longer than 100 seconds is ended by a signal.

   FAULT_SWEEP=name   the program runs again and again, with n = 1, 2, .. for one of the first five faults (0, 1, .. for
                      FAULT_WRITE), until a run meets none, or 20,000 have met one. Each run is a copy of the process
                      before its main, and begins at the start of standard input, a file. What it writes to standard
                      output and standard error goes to a file. Runs in a row that end alike are told in one line on
                      standard output: the first n, the last, the status as a shell has it, and 1 where they met the
                      fault, 2 where the start of a thread was refused behind a growth, else 0; an interruption isn't
                      counted. The file of line k is FAULT_SHOWN.k */
#define _GNU_SOURCE
#include <dlfcn.h>
#include <errno.h>
#include <fcntl.h>
#include <pthread.h>
#include <stdatomic.h>
#include <stdio.h>
#include <stdlib.h>
#include <string.h>
#include <sys/mman.h>
#include <sys/stat.h>
#include <sys/syscall.h>
#include <sys/uio.h>
#include <sys/wait.h>
#include <unistd.h>

enum { MOST_RUNS = 20000, MOST_TEXT = 1 << 20, LONGEST_NAME = 4096 };

extern void *__libc_malloc(size_t);
extern void *__libc_calloc(size_t, size_t);
extern void *__libc_realloc(void *, size_t);
extern void *__libc_memalign(size_t, size_t);

typedef int start_thread(pthread_t *, const pthread_attr_t *, void *(*)(void *), void *);

static start_thread *next_start;
static long growth, growth_on, thread, thread_after, failing_read, room = -1, takes_none, piece, interruptions;
static atomic_long growths, threads, reads, calls;
static atomic_int has_refused_growth;

/* What this run of a sweep has met, in memory that the runs share with the process that begins them. */
enum { NO_FAULT, FAULT, THREAD_AFTER_GROWTH };
static atomic_int *has_met;

/* What runs in a row come to. */
struct runs {
    long first, last;
    int status, met;
    size_t size;
    char text[MOST_TEXT];
};

static struct runs told, found;

static void give_up(const char *what) {
    perror(what);
    _exit(2);
}

/* Waits for a run, and reads what it wrote. */
static void take_run(pid_t run, long n, int file) {
    struct stat written;
    ssize_t size;
    int status;
    if (waitpid(run, &status, 0) != run || fstat(file, &written) != 0)
        give_up("a run");
    size = pread(file, found.text, MOST_TEXT, 0);
    if (size < 0 || size != written.st_size)
        give_up("the output of a run");
    found.size = size;
    found.first = found.last = n;
    found.status = WIFSIGNALED(status) ? 128 + WTERMSIG(status) : WEXITSTATUS(status);
    found.met = atomic_load(has_met);
}

static int ended_alike(void) {
    return told.first >= 0 && told.status == found.status && told.met == found.met && told.size == found.size &&
           memcmp(told.text, found.text, found.size) == 0;
}

static void tell_runs(void) {
    if (told.first >= 0)
        dprintf(1, "%ld %ld %d %d\n", told.first, told.last, told.status, told.met);
}

/* Runs the program with each n of a fault. It returns in the runs alone. */
static void sweep(long *fault, long n, const char *shown) {
    char name[LONGEST_NAME], kept[LONGEST_NAME];
    int lines = 0, file;
    long end = n + MOST_RUNS;
    pid_t run;
    has_met = mmap(NULL, sizeof *has_met, PROT_READ | PROT_WRITE, MAP_SHARED | MAP_ANONYMOUS, -1, 0);
    if (has_met == MAP_FAILED || snprintf(name, sizeof name, "%s.0", shown) >= (int)sizeof name)
        give_up("a sweep");
    told.first = -1;
    for (found.met = FAULT; n < end && found.met != NO_FAULT; n++) {
        atomic_store(has_met, NO_FAULT);
        file = open(name, O_RDWR | O_CREAT | O_TRUNC | O_APPEND, 0600);
        run = file < 0 ? -1 : fork();
        if (run < 0)
            give_up("a run");
        if (run == 0) {
            lseek(0, 0, SEEK_SET);
            dup2(file, 1);
            dup2(file, 2);
            close(file);
            alarm(100);
            *fault = n;
            return;
        }
        take_run(run, n, file);
        close(file);
        if (ended_alike()) {
            told.last = n;
            continue;
        }
        tell_runs();
        memcpy(&told, &found, sizeof found - sizeof found.text + found.size);
        if (snprintf(kept, sizeof kept, "%s.%d", shown, ++lines) >= (int)sizeof kept || rename(name, kept) != 0)
            give_up("the output of a run");
    }
    tell_runs();
    unlink(name);
    _exit(0);
}

/* What the environment may set, and from which n on a sweep goes over it. */
enum { NOT_SWEPT = -1 };
static const struct {
    const char *name;
    long *value, from;
} faults[] = {
    {"FAULT_GROWTH", &growth, 1}, {"FAULT_GROWTH_ON", &growth_on, 1}, {"FAULT_THREAD", &thread, 1},
    {"FAULT_READ", &failing_read, 1}, {"FAULT_WRITE", &room, 0}, {"FAULT_THREAD_AFTER", &thread_after, NOT_SWEPT},
    {"FAULT_ZERO", &takes_none, NOT_SWEPT}, {"FAULT_PIECE", &piece, NOT_SWEPT}, {"FAULT_INTERRUPT", &interruptions, NOT_SWEPT},
};
static const size_t fault_count = sizeof faults / sizeof *faults;

__attribute__((constructor)) static void initialise(void) {
    const char *name = getenv("FAULT_SWEEP"), *shown = getenv("FAULT_SHOWN");
    size_t i;
    next_start = (start_thread *)dlsym(RTLD_NEXT, "pthread_create");
    for (i = 0; i < fault_count; i++)
        if (getenv(faults[i].name) != NULL)
            *faults[i].value = atol(getenv(faults[i].name));
    if (name == NULL || shown == NULL) {
        alarm(100);
        return;
    }
    for (i = 0; i < fault_count; i++)
        if (faults[i].from != NOT_SWEPT && strcmp(name, faults[i].name) == 0) {
            sweep(faults[i].value, faults[i].from, shown);
            return;
        }
    errno = EINVAL;
    give_up(name);
}

/* Says that a fault was met, on the descriptor 9 or to the process that sweeps, and keeps it as the error. */
static void met(int what, int error) {
    if (has_met != NULL && atomic_load(has_met) < what)
        atomic_store(has_met, what);
    else if (has_met == NULL)
        syscall(SYS_write, 9, "x", 1);
    errno = error;
}

static int is_refused(void) {
    long count;
    if (growth == 0 && growth_on == 0)
        return 0;
    count = atomic_fetch_add(&growths, 1) + 1;
    if (count != growth && (growth_on == 0 || count < growth_on))
        return 0;
    atomic_store(&has_refused_growth, 1);
    met(FAULT, ENOMEM);
    return 1;
}

void *malloc(size_t size) {
    return is_refused() ? NULL : __libc_malloc(size);
}

void *calloc(size_t count, size_t size) {
    return is_refused() ? NULL : __libc_calloc(count, size);
}

void *realloc(void *old, size_t size) {
    return is_refused() ? NULL : __libc_realloc(old, size);
}

void *memalign(size_t alignment, size_t size) {
    return is_refused() ? NULL : __libc_memalign(alignment, size);
}

void *aligned_alloc(size_t alignment, size_t size) {
    return is_refused() ? NULL : __libc_memalign(alignment, size);
}

int posix_memalign(void **made, size_t alignment, size_t size) {
    void *found = is_refused() ? NULL : __libc_memalign(alignment, size);
    if (found == NULL)
        return ENOMEM;
    *made = found;
    return 0;
}

int pthread_create(pthread_t *made, const pthread_attr_t *how, void *(*body)(void *), void *with) {
    if (thread != 0 && atomic_fetch_add(&threads, 1) + 1 == thread) {
        met(FAULT, 0);
        return EAGAIN;
    }
    if (thread_after != 0 && atomic_load(&has_refused_growth)) {
        met(THREAD_AFTER_GROWTH, 0);
        return EAGAIN;
    }
    return next_start(made, how, body, with);
}

/* Whether this read or write is to be interrupted: all but each last of interruptions + 1. */
static int is_interrupted(void) {
    if (interruptions == 0 || (atomic_fetch_add(&calls, 1) + 1) % (interruptions + 1) == 0)
        return 0;
    if (has_met == NULL)
        met(FAULT, EINTR);
    errno = EINTR;
    return 1;
}

static size_t at_most(size_t size) {
    return piece != 0 && size > (size_t)piece ? (size_t)piece : size;
}

ssize_t read(int file, void *space, size_t size) {
    if (file != 0)
        return syscall(SYS_read, file, space, size);
    if (is_interrupted())
        return -1;
    if (failing_read != 0 && atomic_fetch_add(&reads, 1) + 1 >= failing_read) {
        met(FAULT, EIO);
        return -1;
    }
    return syscall(SYS_read, file, space, at_most(size));
}

ssize_t write(int file, const void *text, size_t size) {
    ssize_t count;
    if (file != 1)
        return syscall(SYS_write, file, text, size);
    if (is_interrupted())
        return -1;
    size = at_most(size);
    if (room == 0 && size != 0) {
        met(FAULT, EIO);
        return takes_none ? 0 : -1;
    }
    if (room > 0 && size > (size_t)room)
        size = room;
    count = syscall(SYS_write, file, text, size);
    if (room > 0 && count > 0)
        room -= count;
    return count;
}

ssize_t writev(int file, const struct iovec *parts, int count) {
    int i;
    if (file != 1)
        return syscall(SYS_writev, file, parts, count);
    for (i = 0; i < count; i++)
        if (parts[i].iov_len != 0)
            return write(file, parts[i].iov_base, parts[i].iov_len);
    return 0;
}
