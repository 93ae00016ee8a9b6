/* Lets one call of the C library fail, once: LD_PRELOAD of checks/failing_calls.py. It is no part of the product.
 *
 * FAIL_CALL is the call's name, FAIL_AT which one of those fails that the filter lets through, counted from 1, FAIL_ERRNO with what,
 * and FAIL_EFFECT whether the call is made all the same. FAIL_PATH is a part of the path, for calls that have one, or of the path that
 * the descriptor was opened by. Each call that was let fail is told in the file FAIL_LOG.
 */
#define _GNU_SOURCE
#include <dlfcn.h>
#include <errno.h>
#include <fcntl.h>
#include <stdarg.h>
#include <stdio.h>
#include <stdlib.h>
#include <string.h>
#include <sys/epoll.h>
#include <sys/socket.h>
#include <sys/stat.h>
#include <sys/types.h>
#include <sys/uio.h>
#include <unistd.h>

static const char *wanted, *part, *log_path;
static long at, count;
static int error, effect, ready;

static void begin(void) {
    if (ready) return;
    ready = 1;
    wanted = getenv("FAIL_CALL");
    part = getenv("FAIL_PATH");
    log_path = getenv("FAIL_LOG");
    at = getenv("FAIL_AT") ? atol(getenv("FAIL_AT")) : 0;
    error = getenv("FAIL_ERRNO") ? atoi(getenv("FAIL_ERRNO")) : EIO;
    effect = getenv("FAIL_EFFECT") != NULL;
}

static void path_of(int fd, char *path, size_t size) {
    char name[64];
    ssize_t length;
    snprintf(name, sizeof name, "/proc/self/fd/%d", fd);
    length = readlink(name, path, size - 1);
    path[length < 0 ? 0 : length] = 0;
}

static void tell(const char *call, const char *path) {
    static ssize_t (*next)(int, const void *, size_t);
    char line[4400];
    int fd, length;
    if (!log_path) return;
    if (!next) next = dlsym(RTLD_NEXT, "write");
    int (*opens)(const char *, int, ...) = dlsym(RTLD_NEXT, "open");
    fd = opens(log_path, O_WRONLY | O_CREAT | O_APPEND | O_CLOEXEC, 0600);
    length = snprintf(line, sizeof line, "%s %s\n", call, path);
    if (fd >= 0) { next(fd, line, length); close(fd); }
}

/* Whether this call is the one that fails. */
static int fails(const char *call, const char *path) {
    begin();
    if (!wanted || strcmp(call, wanted) || (part && !strstr(path, part))) return 0;
    if (++count != at) return 0;
    tell(call, path);
    return 1;
}

static int fails_fd(const char *call, int fd) {
    char path[4096];
    begin();
    if (!wanted || strcmp(call, wanted)) return 0;
    path_of(fd, path, sizeof path);
    return fails(call, path);
}

#define NEXT(type, name, ...) type (*next)(__VA_ARGS__) = dlsym(RTLD_NEXT, name)
#define FAIL(made) do { if (effect) { (void)!(made); } errno = error; return -1; } while (0)

int open(const char *path, int flags, ...) {
    va_list rest; mode_t mode;
    va_start(rest, flags); mode = va_arg(rest, mode_t); va_end(rest);
    NEXT(int, "open", const char *, int, ...);
    if (fails("open", path)) { errno = error; return -1; }
    return next(path, flags, mode);
}
int open64(const char *path, int flags, ...) {
    va_list rest; mode_t mode;
    va_start(rest, flags); mode = va_arg(rest, mode_t); va_end(rest);
    NEXT(int, "open64", const char *, int, ...);
    if (fails("open", path)) { errno = error; return -1; }
    return next(path, flags, mode);
}
int openat(int dir, const char *path, int flags, ...) {
    va_list rest; mode_t mode;
    va_start(rest, flags); mode = va_arg(rest, mode_t); va_end(rest);
    NEXT(int, "openat", int, const char *, int, ...);
    if (fails("open", path)) { errno = error; return -1; }
    return next(dir, path, flags, mode);
}
ssize_t read(int fd, void *bytes, size_t size) {
    NEXT(ssize_t, "read", int, void *, size_t);
    if (fails_fd("read", fd)) FAIL(next(fd, bytes, size));
    return next(fd, bytes, size);
}
ssize_t recv(int fd, void *bytes, size_t size, int flags) {
    NEXT(ssize_t, "recv", int, void *, size_t, int);
    if (fails_fd("recv", fd)) FAIL(0);
    return next(fd, bytes, size, flags);
}
ssize_t write(int fd, const void *bytes, size_t size) {
    NEXT(ssize_t, "write", int, const void *, size_t);
    if (fails_fd("write", fd)) FAIL(next(fd, bytes, size));
    return next(fd, bytes, size);
}
ssize_t send(int fd, const void *bytes, size_t size, int flags) {
    NEXT(ssize_t, "send", int, const void *, size_t, int);
    if (fails_fd("send", fd)) FAIL(0);
    return next(fd, bytes, size, flags);
}
off_t lseek(int fd, off_t offset, int whence) {
    NEXT(off_t, "lseek", int, off_t, int);
    if (fails_fd("lseek", fd)) FAIL(next(fd, offset, whence));
    return next(fd, offset, whence);
}
int fsync(int fd) {
    NEXT(int, "fsync", int);
    if (fails_fd("fsync", fd)) FAIL(next(fd));
    return next(fd);
}
int rename(const char *from, const char *to) {
    NEXT(int, "rename", const char *, const char *);
    if (fails("rename", to)) FAIL(next(from, to));
    return next(from, to);
}
int unlink(const char *path) {
    NEXT(int, "unlink", const char *);
    if (fails("unlink", path)) FAIL(next(path));
    return next(path);
}
int fchmod(int fd, mode_t mode) {
    NEXT(int, "fchmod", int, mode_t);
    if (fails_fd("fchmod", fd)) FAIL(next(fd, mode));
    return next(fd, mode);
}
int fchown(int fd, uid_t owner, gid_t group) {
    NEXT(int, "fchown", int, uid_t, gid_t);
    if (fails_fd("fchown", fd)) FAIL(next(fd, owner, group));
    return next(fd, owner, group);
}
int accept4(int fd, struct sockaddr *address, socklen_t *size, int flags) {
    NEXT(int, "accept4", int, struct sockaddr *, socklen_t *, int);
    if (fails_fd("accept4", fd)) { errno = error; return -1; }
    return next(fd, address, size, flags);
}
ssize_t getdents64(int fd, void *bytes, size_t size) {
    NEXT(ssize_t, "getdents64", int, void *, size_t);
    if (fails_fd("getdents64", fd)) FAIL(0);
    return next(fd, bytes, size);
}
int statx(int dir, const char *path, int flags, unsigned mask, struct statx *found) {
    NEXT(int, "statx", int, const char *, int, unsigned, struct statx *);
    char name[4096];
    if (!*path) path_of(dir, name, sizeof name);
    if (fails("statx", *path ? path : name)) { errno = error; return -1; }
    return next(dir, path, flags, mask, found);
}
int epoll_wait(int fd, struct epoll_event *events, int size, int timeout) {
    NEXT(int, "epoll_wait", int, struct epoll_event *, int, int);
    if (fails_fd("epoll_wait", fd)) { errno = error; return -1; }
    return next(fd, events, size, timeout);
}
int epoll_ctl(int fd, int what, int of, struct epoll_event *event) {
    NEXT(int, "epoll_ctl", int, int, int, struct epoll_event *);
    if (fails_fd("epoll_ctl", fd)) { errno = error; return -1; }
    return next(fd, what, of, event);
}
