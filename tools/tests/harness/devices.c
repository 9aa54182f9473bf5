/* Changes what becomes of one call that moves bytes: the one that CALL counts to, from 1. It makes the file CALL_MARK
   then. Made a library that is loaded before the C library. DEVICE_HOW tells what:

   end     the process is killed before the call
   torn    half of what the call writes is written, and the process is killed
   lose    as end, and all is lost that was written to files and not synced
   fail    the call fails with EIO
   dead    it fails, and so does each after it
   full    as dead, with ENOSPC; quota with EDQUOT, and large with EFBIG
   short   one byte is moved

   DEVICE_WHICH has a letter for each kind of call that counts: r reads, w writes and syncs, y syncs alone, o writes
   alone; f of regular files, s of sockets and other streams. Where DEVICE_SIP is set, each read of a socket gives one byte. */
#define _GNU_SOURCE
#include <dlfcn.h>
#include <errno.h>
#include <fcntl.h>
#include <signal.h>
#include <stdio.h>
#include <stdlib.h>
#include <string.h>
#include <sys/socket.h>
#include <sys/stat.h>
#include <sys/syscall.h>
#include <sys/uio.h>
#include <unistd.h>

#define NEXT(name) \
    static __typeof__(&name) next; \
    if (!next) \
        next = (__typeof__(&name))dlsym(RTLD_NEXT, #name)

enum turn { MADE, HALF, ONE, FAILS };

/* What a file held before a call that changed it, the newest first. */
static struct change {
    ino_t inode;
    int file;
    off_t at, size;
    size_t count;
    char *bytes;
    struct change *before;
} *changes;

static const char *told(const char *name) {
    const char *text = getenv(name);
    return text ? text : "";
}

static int is_how(const char *how) { return strcmp(told("DEVICE_HOW"), how) == 0; }

static int is_file(int fd) {
    struct stat seen;
    return fstat(fd, &seen) == 0 && S_ISREG(seen.st_mode);
}

static int is_socket(int fd) {
    struct stat seen;
    return fstat(fd, &seen) == 0 && S_ISSOCK(seen.st_mode);
}

/* A further name for the file, which stays open: where a name is closed, the locks go. */
static int kept(int fd, ino_t inode) {
    static struct { ino_t inode; int file; } names[16];
    static int count;
    char path[32];
    for (int i = 0; i < count; i++)
        if (names[i].inode == inode)
            return names[i].file;
    snprintf(path, sizeof path, "/proc/self/fd/%d", fd);
    if (count == 16)
        abort();
    names[count].inode = inode;
    return names[count++].file = syscall(SYS_openat, AT_FDCWD, path, O_RDWR | O_CLOEXEC, 0);
}

/* Remembers what these bytes of the file are; at -1 those where it stands. */
static void remember(int fd, off_t at, size_t count) {
    struct stat seen;
    if (!is_how("lose") || fstat(fd, &seen) != 0 || !S_ISREG(seen.st_mode))
        return;
    struct change *it = calloc(1, sizeof *it);
    it->inode = seen.st_ino;
    it->file = kept(fd, seen.st_ino);
    it->at = at < 0 ? lseek(fd, 0, SEEK_CUR) : at;
    it->size = seen.st_size;
    it->bytes = malloc(count + 1);
    ssize_t had = pread(it->file, it->bytes, count, it->at);
    it->count = had > 0 ? had : 0;
    it->before = changes;
    changes = it;
}

/* What was written to the file is synced. */
static void forget(int fd) {
    struct stat seen;
    if (fstat(fd, &seen) != 0)
        return;
    for (struct change **at = &changes; *at;) {
        struct change *it = *at;
        if (it->inode == seen.st_ino)
            *at = it->before;
        else
            at = &it->before;
    }
}

static void lose(void) {
    for (; changes; changes = changes->before) {
        syscall(SYS_pwrite64, changes->file, changes->bytes, changes->count, changes->at);
        syscall(SYS_ftruncate, changes->file, changes->size);
    }
}

static void end(void) {
    if (is_how("lose"))
        lose();
    kill(getpid(), SIGKILL);
    pause();
}

static void mark(void) {
    const char *path = getenv("CALL_MARK");
    if (path)
        close(syscall(SYS_openat, AT_FDCWD, path, O_CREAT | O_WRONLY | O_CLOEXEC, 0600));
}

static enum turn failing(int error) {
    errno = error;
    return FAILS;
}

/* Whether calls of this way count: a sync is also a write. */
static int counts(char way) {
    const char *which = told("DEVICE_WHICH");
    return strchr(which, way) || way == 'y' && strchr(which, 'w') || way == 'w' && strchr(which, 'o');
}

/* How the want of room is told; 0 where there is none. */
static int no_room(void) { return is_how("full") ? ENOSPC : is_how("quota") ? EDQUOT : is_how("large") ? EFBIG : 0; }

/* What becomes of this call, a read, a write or a sync. Those of standard error don't count. */
static enum turn turn(int fd, char way) {
    static long count, at = -1;
    if (at < 0)
        at = atol(told("CALL"));
    if (fd == 2 || !counts(way) || !strchr(told("DEVICE_WHICH"), is_file(fd) ? 'f' : 's') || at == 0)
        return MADE;
    count++;
    if (count == at)
        mark();
    if (count == at && (is_how("end") || is_how("lose")))
        end();
    if (count == at && is_how("torn"))
        return HALF;
    if (count == at && is_how("short"))
        return ONE;
    if (count == at && is_how("fail") || count >= at && is_how("dead"))
        return failing(EIO);
    return count >= at && way != 'r' && no_room() ? failing(no_room()) : MADE;
}

/* How many bytes a read of so many is given. */
static size_t sipped(int fd, size_t count) { return getenv("DEVICE_SIP") && is_socket(fd) && count > 1 ? 1 : count; }

#define READ(name, parameters, call) \
    ssize_t name parameters { \
        NEXT(name); \
        enum turn it = turn(fd, 'r'); \
        count = it == ONE && count > 1 ? 1 : sipped(fd, count); \
        return it == FAILS ? -1 : next call; \
    }

#define WRITE(name, parameters, call, at) \
    ssize_t name parameters { \
        NEXT(name); \
        enum turn it = turn(fd, 'w'); \
        if (it == FAILS) \
            return -1; \
        count = it == HALF ? count / 2 : it == ONE && count > 1 ? 1 : count; \
        remember(fd, at, count); \
        ssize_t done = next call; \
        if (it == HALF) \
            end(); \
        return done; \
    }

READ(read, (int fd, void *bytes, size_t count), (fd, bytes, count))
READ(recv, (int fd, void *bytes, size_t count, int flags), (fd, bytes, count, flags))
READ(recvfrom, (int fd, void *bytes, size_t count, int flags, __SOCKADDR_ARG from, socklen_t *length),
     (fd, bytes, count, flags, from, length))
READ(pread, (int fd, void *bytes, size_t count, off_t at), (fd, bytes, count, at))
READ(pread64, (int fd, void *bytes, size_t count, off64_t at), (fd, bytes, count, at))
WRITE(write, (int fd, const void *bytes, size_t count), (fd, bytes, count), -1)
WRITE(send, (int fd, const void *bytes, size_t count, int flags), (fd, bytes, count, flags), -1)
WRITE(sendto, (int fd, const void *bytes, size_t count, int flags, __CONST_SOCKADDR_ARG to, socklen_t length),
      (fd, bytes, count, flags, to, length), -1)
WRITE(pwrite, (int fd, const void *bytes, size_t count, off_t at), (fd, bytes, count, at), at)
WRITE(pwrite64, (int fd, const void *bytes, size_t count, off64_t at), (fd, bytes, count, at), at)

/* What is given in parts is sent as the first one that isn't empty. */
ssize_t sendmsg(int fd, const struct msghdr *message, int flags) {
    for (size_t i = 0; i < message->msg_iovlen; i++)
        if (message->msg_iov[i].iov_len)
            return send(fd, message->msg_iov[i].iov_base, message->msg_iov[i].iov_len, flags);
    return 0;
}

ssize_t writev(int fd, const struct iovec *parts, int count) {
    for (int i = 0; i < count; i++)
        if (parts[i].iov_len)
            return write(fd, parts[i].iov_base, parts[i].iov_len);
    return 0;
}

#define SYNC(name) \
    int name(int fd) { \
        NEXT(name); \
        enum turn it = turn(fd, 'y'); \
        if (it == FAILS) \
            return -1; \
        if (it == HALF) \
            end(); \
        int done = next(fd); \
        forget(fd); \
        return done; \
    }

#define CUT(name, offset) \
    int name(int fd, offset size) { \
        NEXT(name); \
        struct stat seen; \
        enum turn it = turn(fd, 'w'); \
        if (it == FAILS) \
            return -1; \
        if (it == HALF) \
            end(); \
        if (fstat(fd, &seen) == 0) \
            remember(fd, size, seen.st_size > size ? seen.st_size - size : 0); \
        return next(fd, size); \
    }

SYNC(fsync)
SYNC(fdatasync)
CUT(ftruncate, off_t)
CUT(ftruncate64, off64_t)
