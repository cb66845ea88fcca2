/* A library to be loaded before a program's others (LD_PRELOAD), which refuses the program something and counts what it asks for:
 *
 *     REFUSE="memory 7"    the seventh allocation is refused
 *     REFUSE="open 2"      the second open fails, as by a fault of the device
 *     REFUSE="read 3"      the third read fails
 *     REFUSE="write 4"     the fourth write fails
 *     REFUSE="nothing 4"   the fourth write takes none of its bytes
 *     REFUSE_SHORT=1       each read and write moves one byte at the most
 *     REFUSE_TELL=FILE     where it is told
 *
 * What is told: a line 'memory', 'open PATH 0', 'read PATH N' or 'write PATH N' for what was refused, where N is the number
 * of bytes that the file had given or taken before, and a last line 'end ALLOCATIONS OPENS READS WRITES PEAK', where PEAK is the most bytes
 * of allocations that stood at once. A path is - for standard input, output or error, followed by its number.
 */

#define _GNU_SOURCE
#include <errno.h>
#include <fcntl.h>
#include <malloc.h>
#include <stdarg.h>
#include <stdint.h>
#include <stdio.h>
#include <stdlib.h>
#include <string.h>
#include <sys/syscall.h>
#include <sys/uio.h>
#include <unistd.h>

#define FILES 64
#define PATH 256

void *__libc_malloc(size_t);
void *__libc_calloc(size_t, size_t);
void *__libc_realloc(void *, size_t);
void *__libc_memalign(size_t, size_t);
void __libc_free(void *);

enum kind { NONE, MEMORY, OPEN, READ, WRITE, NOTHING };

static enum kind refused;
static unsigned long refused_at;
static int is_short;
static int tell = -1;
static int ready;

static unsigned long allocations, opens, reads, writes;
static size_t held, peak;

static char paths[FILES][PATH];
static unsigned long moved[FILES];

static void say(const char *text) {
    size_t left = strlen(text);
    while (left > 0) {
        long wrote = syscall(SYS_write, tell, text, left);
        if (wrote <= 0) {
            return;
        }
        text += wrote;
        left -= (size_t)wrote;
    }
}

static void say_refused(const char *what, const char *path, unsigned long bytes) {
    char line[PATH + 64];
    snprintf(line, sizeof line, "%s %s %lu\n", what, path, bytes);
    say(line);
}

static const char *path_of(int file) {
    if (file >= 0 && file < FILES && paths[file][0] != 0) {
        return paths[file];
    }
    static char standard[3] = "-?";
    standard[1] = (char)('0' + (file & 7));
    return standard;
}

__attribute__((constructor)) static void begin(void) {
    const char *words = getenv("REFUSE");
    static const char *const names[] = {"", "memory ", "open ", "read ", "write ", "nothing "};
    for (enum kind kind = MEMORY; words != NULL && kind <= NOTHING; kind++) {
        if (strncmp(words, names[kind], strlen(names[kind])) == 0) {
            refused = kind;
            refused_at = strtoul(words + strlen(names[kind]), NULL, 10);
        }
    }
    is_short = getenv("REFUSE_SHORT") != NULL;
    const char *file = getenv("REFUSE_TELL");
    if (file != NULL) {
        int opened = (int)syscall(SYS_openat, AT_FDCWD, file, O_WRONLY | O_CREAT | O_TRUNC | O_CLOEXEC, 0644);
        tell = (int)syscall(SYS_fcntl, opened, F_DUPFD_CLOEXEC, 100);
        syscall(SYS_close, opened);
    }
    ready = 1;
}

__attribute__((destructor)) static void end(void) {
    char line[128];
    ready = 0;
    snprintf(line, sizeof line, "end %lu %lu %lu %lu %zu\n", allocations, opens, reads, writes, peak);
    say(line);
}

/* Whether this allocation is refused. */
static int lacks_memory(void) {
    if (!ready || ++allocations != refused_at || refused != MEMORY) {
        return 0;
    }
    say("memory\n");
    errno = ENOMEM;
    return 1;
}

static void *keep(void *block) {
    if (block != NULL) {
        held += malloc_usable_size(block);
        peak = held > peak ? held : peak;
    }
    return block;
}

static void let_go(void *block) {
    if (block != NULL) {
        size_t size = malloc_usable_size(block);
        held -= size < held ? size : held;
    }
}

void *malloc(size_t size) {
    return lacks_memory() ? NULL : keep(__libc_malloc(size));
}

void *calloc(size_t count, size_t size) {
    return lacks_memory() ? NULL : keep(__libc_calloc(count, size));
}

void *realloc(void *block, size_t size) {
    if (lacks_memory()) {
        return NULL;
    }
    size_t before = block == NULL ? 0 : malloc_usable_size(block);
    void *moved_to = __libc_realloc(block, size);
    if (moved_to != NULL || size == 0) {
        held -= before < held ? before : held;
    }
    return keep(moved_to);
}

void *memalign(size_t alignment, size_t size) {
    return lacks_memory() ? NULL : keep(__libc_memalign(alignment, size));
}

void *aligned_alloc(size_t alignment, size_t size) {
    return memalign(alignment, size);
}

int posix_memalign(void **block, size_t alignment, size_t size) {
    void *made = memalign(alignment, size);
    if (made == NULL) {
        return ENOMEM;
    }
    *block = made;
    return 0;
}

void free(void *block) {
    let_go(block);
    __libc_free(block);
}

static int open_at(int folder, const char *path, int flags, mode_t mode) {
    opens++;
    if (refused == OPEN && opens == refused_at) {
        say_refused("open", path, 0);
        errno = EIO;
        return -1;
    }
    int file = (int)syscall(SYS_openat, folder, path, flags, mode);
    if (file >= 0 && file < FILES) {
        snprintf(paths[file], PATH, "%s", path);
        moved[file] = 0;
    }
    return file;
}

static mode_t mode_in(int flags, va_list rest) {
    return flags & (O_CREAT | O_TMPFILE) ? va_arg(rest, mode_t) : 0;
}

int openat(int folder, const char *path, int flags, ...) {
    va_list rest;
    va_start(rest, flags);
    mode_t mode = mode_in(flags, rest);
    va_end(rest);
    return open_at(folder, path, flags, mode);
}

int open(const char *path, int flags, ...) {
    va_list rest;
    va_start(rest, flags);
    mode_t mode = mode_in(flags, rest);
    va_end(rest);
    return open_at(AT_FDCWD, path, flags, mode);
}

int open64(const char *path, int flags, ...) __attribute__((alias("open")));

static void count_moved(int file, ssize_t bytes) {
    if (bytes > 0 && file >= 0 && file < FILES) {
        moved[file] += (unsigned long)bytes;
    }
}

static unsigned long moved_by(int file) {
    return file >= 0 && file < FILES ? moved[file] : 0;
}

ssize_t read(int file, void *bytes, size_t count) {
    reads++;
    if (refused == READ && reads == refused_at) {
        say_refused("read", path_of(file), moved_by(file));
        errno = EIO;
        return -1;
    }
    ssize_t given = syscall(SYS_read, file, bytes, is_short && count > 1 ? 1 : count);
    count_moved(file, given);
    return given;
}

ssize_t write(int file, const void *bytes, size_t count) {
    writes++;
    if ((refused == WRITE || (refused == NOTHING && count > 0)) && writes == refused_at) {
        say_refused("write", path_of(file), moved_by(file));
        errno = EIO;
        return refused == WRITE ? -1 : 0;
    }
    ssize_t taken = syscall(SYS_write, file, bytes, is_short && count > 1 ? 1 : count);
    count_moved(file, taken);
    return taken;
}

ssize_t writev(int file, const struct iovec *parts, int count) {
    if (!is_short && refused != WRITE && refused != NOTHING) {
        writes++;
        ssize_t taken = syscall(SYS_writev, file, parts, count);
        count_moved(file, taken);
        return taken;
    }
    for (int part = 0; part < count; part++) {
        if (parts[part].iov_len > 0) {
            return write(file, parts[part].iov_base, parts[part].iov_len);
        }
    }
    return 0;
}
