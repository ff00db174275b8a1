// Fails one call of a program on its files: FAILS names the kind, and the number among the calls of this kind, counted from 1; 0 is each of
// them. The call then does nothing, and tells EIO; where FAILS begins with `interrupted`, it tells EINTR. Of kind `short` no call fails, but
// each read and each write takes seven bytes at most. When a call fails the file that TOLD names is made. Loaded before the C library, by
// LD_PRELOAD.
//
// Build: gcc -O2 -shared -fPIC -o failing.so failing.c -ldl
#define _GNU_SOURCE
#include <dlfcn.h>
#include <errno.h>
#include <fcntl.h>
#include <stdarg.h>
#include <stdlib.h>
#include <string.h>
#include <sys/syscall.h>
#include <sys/types.h>
#include <sys/uio.h>
#include <unistd.h>

enum { SHORT = 7 };

static long calls = 0;

// Whether this call of the kind fails; errno is set then.
static int fails(const char *kind) {
    const char *wanted = getenv("FAILS"), *told = getenv("TOLD");
    int error = EIO;
    if (wanted == NULL || told == NULL) return 0;
    if (strncmp(wanted, "interrupted ", 12) == 0) {
        wanted += 12;
        error = EINTR;
    }
    size_t length = strlen(kind);
    if (strncmp(wanted, kind, length) != 0 || wanted[length] != ' ') return 0;
    long count = __atomic_add_fetch(&calls, 1, __ATOMIC_SEQ_CST), number = atol(wanted + length);
    if (number != 0 && count != number) return 0;
    syscall(SYS_openat, AT_FDCWD, told, O_CREAT | O_WRONLY, 0600);
    errno = error;
    return 1;
}

static size_t at_most(size_t size) {
    const char *wanted = getenv("FAILS");
    return wanted != NULL && strcmp(wanted, "short") == 0 && size > SHORT ? SHORT : size;
}

ssize_t read(int fd, void *into, size_t size) {
    return fails("read") ? -1 : syscall(SYS_read, fd, into, at_most(size));
}

ssize_t write(int fd, const void *from, size_t size) {
    return fails("write") ? -1 : syscall(SYS_write, fd, from, at_most(size));
}

ssize_t writev(int fd, const struct iovec *parts, int count) {
    return fails("write") ? -1 : syscall(SYS_writev, fd, parts, count);
}

static int opened(int folder, const char *name, int flags, int mode) {
    return fails("open") ? -1 : (int)syscall(SYS_openat, folder, name, flags, mode);
}

#define MODE(flags, mode)                                  \
    int mode = 0;                                          \
    if ((flags) & (O_CREAT | O_TMPFILE)) {                 \
        va_list more;                                      \
        va_start(more, flags);                             \
        mode = va_arg(more, int);                          \
        va_end(more);                                      \
    }

int open(const char *name, int flags, ...) {
    MODE(flags, mode)
    return opened(AT_FDCWD, name, flags, mode);
}

int open64(const char *name, int flags, ...) {
    MODE(flags, mode)
    return opened(AT_FDCWD, name, flags, mode);
}

int openat(int folder, const char *name, int flags, ...) {
    MODE(flags, mode)
    return opened(folder, name, flags, mode);
}

int openat64(int folder, const char *name, int flags, ...) {
    MODE(flags, mode)
    return opened(folder, name, flags, mode);
}

int fsync(int fd) {
    return fails("fsync") ? -1 : (int)syscall(SYS_fsync, fd);
}

int fchmod(int fd, mode_t mode) {
    return fails("fchmod") ? -1 : (int)syscall(SYS_fchmod, fd, mode);
}

int fchown(int fd, uid_t owner, gid_t group) {
    return fails("fchown") ? -1 : (int)syscall(SYS_fchown, fd, owner, group);
}

int mkdir(const char *name, mode_t mode) {
    return fails("mkdir") ? -1 : (int)syscall(SYS_mkdirat, AT_FDCWD, name, mode);
}

int rename(const char *from, const char *to) {
    return fails("rename") ? -1 : (int)syscall(SYS_renameat, AT_FDCWD, from, AT_FDCWD, to);
}
