/* A disk that loses what wasn't synced, and fails, for the program that it is loaded into.
 *
 * LD_PRELOAD loads it. It stands between the program and the system for the files and folders below LOSSY_ROOT, and appends an
 * account of each call to the file LOSSY_ACCOUNT, with the bytes that were written. What the program prints, and tells on
 * sockets, is there too, so that the order of all is seen. A call is in the account before the program hears that it is over,
 * so the account survives a program that is killed. lossy_disk.py says by it what a power cut leaves. No sync reaches the
 * machine's own disk: nothing here needs that.
 *
 * LOSSY_DELAY is how many microseconds a write takes at least, and a sync. LOSSY_FAIL_SYNC=N has the N-th sync fail with EIO.
 * LOSSY_PART=N has a write take N bytes at most. LOSSY_INTERRUPT_READ=N and LOSSY_INTERRUPT_WRITE=N interrupt the N-th read or
 * write. With LOSSY_NO_LOCKS each lock fails with ENOLCK.
 */
#define _GNU_SOURCE
#include <dlfcn.h>
#include <errno.h>
#include <fcntl.h>
#include <pthread.h>
#include <stdarg.h>
#include <stdint.h>
#include <stdlib.h>
#include <string.h>
#include <sys/file.h>
#include <sys/socket.h>
#include <sys/stat.h>
#include <sys/syscall.h>
#include <sys/uio.h>
#include <unistd.h>

/* What precedes an entry's name and bytes. lossy_disk.py reads it. */
struct head {
    char kind, unused[3];
    int32_t error;
    int64_t file, at;
    uint32_t name, count;
};

/* A file or a folder below the root that was opened: who it is, and its name from the root on. */
struct known {
    dev_t device;
    ino_t number;
    char name[256];
};

enum { MOST_KNOWN = 64, FIRST_OWN_DESCRIPTOR = 500 };

/* So that the account has the order in which things are done. */
static pthread_mutex_t one_at_a_time = PTHREAD_MUTEX_INITIALIZER;
static struct known known_files[MOST_KNOWN];
static int known_count;
static long syncs, reads, writes;

static long setting(const char *name) {
    const char *text = getenv(name);
    return text ? atol(text) : 0;
}

static void begin(void) { pthread_mutex_lock(&one_at_a_time); }

/* Ends what `begin` began; the answer of the call, after which errno is this error. */
static ssize_t end(ssize_t answer, int error) {
    pthread_mutex_unlock(&one_at_a_time);
    if (answer < 0) errno = error;
    return answer;
}

/* ---- the account */

/* The account's descriptor. It is high, so that it takes the place of no stream that is closed. */
static int account_file(void) {
    static int file = -1;
    if (file < 0) {
        int low = syscall(SYS_openat, AT_FDCWD, getenv("LOSSY_ACCOUNT"), O_WRONLY | O_APPEND | O_CREAT | O_CLOEXEC, 0600);
        file = syscall(SYS_fcntl, low, F_DUPFD_CLOEXEC, FIRST_OWN_DESCRIPTOR);
        if (file < 0) abort();
        syscall(SYS_close, low);
    }
    return file;
}

static void account(char kind, int error, ino_t file, int64_t at, const char *name, const void *bytes, size_t count) {
    struct head head = {kind, {0}, error, (int64_t)file, at, (uint32_t)strlen(name), (uint32_t)count};
    struct iovec parts[] = {{&head, sizeof head}, {(void *)name, head.name}, {(void *)bytes, count}};
    if (syscall(SYS_writev, account_file(), parts, 3) != (ssize_t)(sizeof head + head.name + count)) abort();
}

/* ---- which files it is about */

/* What follows the root in a path, or null where it doesn't lead below the root. */
static const char *below_root(const char *path) {
    const char *root = getenv("LOSSY_ROOT");
    size_t length = root ? strlen(root) : 0;
    return root && strncmp(path, root, length) == 0 && path[length] == '/' ? path + length + 1 : NULL;
}

static struct known *find(const struct stat *found) {
    for (int place = 0; place < known_count; place++) {
        struct known *it = &known_files[place];
        if (it->device == found->st_dev && it->number == found->st_ino) return it;
    }
    return NULL;
}

/* The file below the root that a descriptor is of, or null. */
static struct known *known_of(int file) {
    struct stat found;
    if (!getenv("LOSSY_ROOT") || fstat(file, &found) != 0) return NULL;
    return S_ISREG(found.st_mode) || S_ISDIR(found.st_mode) ? find(&found) : NULL;
}

static void set_name(struct known *it, const char *name) {
    if (strlen(name) >= sizeof it->name) abort();
    strcpy(it->name, name);
}

static struct known *know(int file, const char *name) {
    struct stat found;
    if (fstat(file, &found) != 0) abort();
    struct known *it = find(&found);
    if (!it) {
        if (known_count == MOST_KNOWN) abort();
        it = &known_files[known_count++];
        it->device = found.st_dev;
        it->number = found.st_ino;
    }
    set_name(it, name);
    return it;
}

/* ---- opening */

static int lossy_open(int folder, const char *path, int flags, mode_t mode) {
    const char *name = below_root(path);
    if (!name) return syscall(SYS_openat, folder, path, flags, mode);
    begin();
    struct stat before;
    int was_there = stat(path, &before) == 0;
    int file = syscall(SYS_openat, folder, path, flags, mode);
    int error = errno;
    if (file >= 0) {
        struct known *it = know(file, name);
        if (!was_there || S_ISREG(before.st_mode)) account('O', 0, it->number, !was_there, it->name, "", 0);
        if (was_there && (flags & O_TRUNC)) account('C', 0, it->number, 0, it->name, "", 0);
    }
    return end(file, error);
}

static mode_t mode_of(int flags, va_list rest) { return flags & O_CREAT ? va_arg(rest, mode_t) : 0; }

#define OPENS(NAME, FIRST, FOLDER) \
    int NAME(FIRST const char *path, int flags, ...) { \
        va_list rest; \
        va_start(rest, flags); \
        mode_t mode = mode_of(flags, rest); \
        va_end(rest); \
        return lossy_open(FOLDER, path, flags, mode); \
    }
#define NOTHING
#define IN_FOLDER int folder,
OPENS(open, NOTHING, AT_FDCWD)
OPENS(open64, NOTHING, AT_FDCWD)
OPENS(openat, IN_FOLDER, folder)
OPENS(openat64, IN_FOLDER, folder)

int creat(const char *path, mode_t mode) { return lossy_open(AT_FDCWD, path, O_WRONLY | O_CREAT | O_TRUNC, mode); }
int creat64(const char *path, mode_t mode) { return creat(path, mode); }

/* ---- writing and reading */

/* What goes out for good: a stream's bytes, or a socket's. */
static ssize_t told(char kind, ssize_t answer, const void *bytes) {
    int error = errno;
    if (answer > 0) account(kind, 0, 0, 0, "", bytes, answer);
    return end(answer, error);
}

/* Where a write goes that names no place. */
static off_t place_of(int file) {
    struct stat found;
    if (!(fcntl(file, F_GETFL) & O_APPEND)) return lseek(file, 0, SEEK_CUR);
    return fstat(file, &found) == 0 ? found.st_size : -1;
}

/* Writes at a place, or, where that is -1, wherever the file stands. */
static ssize_t lossy_write(int file, const void *bytes, size_t count, off_t at) {
    struct known *it = known_of(file);
    if (!it) return at < 0 ? syscall(SYS_write, file, bytes, count) : syscall(SYS_pwrite64, file, bytes, count, at);
    begin();
    usleep(setting("LOSSY_DELAY"));
    off_t place = at < 0 ? place_of(file) : at;
    if (++writes == setting("LOSSY_INTERRUPT_WRITE")) {
        account('W', EINTR, it->number, place, it->name, "", 0);
        return end(-1, EINTR);
    }
    size_t part = setting("LOSSY_PART");
    if (part && count > part) count = part;
    ssize_t done = at < 0 ? syscall(SYS_write, file, bytes, count) : syscall(SYS_pwrite64, file, bytes, count, at);
    int error = errno;
    account('W', done < 0 ? error : 0, it->number, place, it->name, bytes, done < 0 ? 0 : done);
    return end(done, error);
}

ssize_t write(int file, const void *bytes, size_t count) {
    if (!getenv("LOSSY_ROOT") || (file != STDOUT_FILENO && file != STDERR_FILENO)) return lossy_write(file, bytes, count, -1);
    begin();
    return told(file == STDOUT_FILENO ? 'P' : 'E', syscall(SYS_write, file, bytes, count), bytes);
}

ssize_t pwrite(int file, const void *bytes, size_t count, off_t at) { return lossy_write(file, bytes, count, at); }
ssize_t pwrite64(int file, const void *bytes, size_t count, off64_t at) { return lossy_write(file, bytes, count, at); }

/* Of several parts the first that isn't empty is written: a write may take a part. */
ssize_t writev(int file, const struct iovec *parts, int count) {
    while (count > 1 && parts->iov_len == 0) parts++, count--;
    return count > 0 ? write(file, parts->iov_base, parts->iov_len) : 0;
}

ssize_t send(int socket, const void *bytes, size_t count, int flags) {
    if (!getenv("LOSSY_ROOT")) return syscall(SYS_sendto, socket, bytes, count, flags, NULL, 0);
    begin();
    return told('T', syscall(SYS_sendto, socket, bytes, count, flags, NULL, 0), bytes);
}

/* Whether a read of a file is to be interrupted. */
static int is_interrupted(int file) {
    struct known *it = known_of(file);
    if (!it) return 0;
    begin();
    int interrupted = ++reads == setting("LOSSY_INTERRUPT_READ");
    if (interrupted) account('I', EINTR, it->number, 0, it->name, "", 0);
    return end(interrupted, 0);
}

ssize_t read(int file, void *bytes, size_t count) {
    if (!is_interrupted(file)) return syscall(SYS_read, file, bytes, count);
    errno = EINTR;
    return -1;
}

ssize_t pread(int file, void *bytes, size_t count, off_t at) {
    if (!is_interrupted(file)) return syscall(SYS_pread64, file, bytes, count, at);
    errno = EINTR;
    return -1;
}

ssize_t pread64(int file, void *bytes, size_t count, off64_t at) { return pread(file, bytes, count, at); }

/* ---- syncing, cutting, names and locks */

static int lossy_sync(int file, long call) {
    struct known *it = known_of(file);
    if (!it) return syscall(call, file);
    struct stat found;
    begin();
    usleep(setting("LOSSY_DELAY"));
    int error = ++syncs == setting("LOSSY_FAIL_SYNC") ? EIO : 0;
    char kind = fstat(file, &found) == 0 && S_ISDIR(found.st_mode) ? 'D' : 'S';
    account(kind, error, it->number, 0, it->name, "", 0);
    return end(error ? -1 : 0, error);
}

int fsync(int file) { return lossy_sync(file, SYS_fsync); }
int fdatasync(int file) { return lossy_sync(file, SYS_fdatasync); }

int ftruncate(int file, off_t size) {
    struct known *it = known_of(file);
    if (!it) return syscall(SYS_ftruncate, file, size);
    begin();
    int done = syscall(SYS_ftruncate, file, size), error = errno;
    account('C', done ? error : 0, it->number, size, it->name, "", 0);
    return end(done, error);
}

int ftruncate64(int file, off64_t size) { return ftruncate(file, size); }

int rename(const char *from, const char *to) {
    const char *old_name = below_root(from), *new_name = below_root(to);
    if (!old_name || !new_name) return syscall(SYS_rename, from, to);
    begin();
    struct stat found;
    struct known *it = stat(from, &found) == 0 ? find(&found) : NULL;
    int done = syscall(SYS_rename, from, to), error = errno;
    if (done == 0 && it) set_name(it, new_name);
    account('R', done ? error : 0, 0, 0, old_name, new_name, strlen(new_name));
    return end(done, error);
}

int unlink(const char *path) {
    const char *name = below_root(path);
    if (!name) return syscall(SYS_unlink, path);
    begin();
    int done = syscall(SYS_unlink, path), error = errno;
    if (done == 0) account('U', 0, 0, 0, name, "", 0);
    return end(done, error);
}

int flock(int file, int operation) {
    struct known *it = known_of(file);
    if (!it) return syscall(SYS_flock, file, operation);
    begin();
    int fails = getenv("LOSSY_NO_LOCKS") && !(operation & LOCK_UN);
    int done = fails ? -1 : syscall(SYS_flock, file, operation), error = fails ? ENOLCK : errno;
    account('L', done ? error : 0, it->number, operation, it->name, "", 0);
    return end(done, error);
}

static int is_lock(int command) {
    return command == F_SETLK || command == F_SETLKW || command == F_OFD_SETLK || command == F_OFD_SETLKW;
}

static int lossy_control(int file, int command, void *argument) {
    struct known *it = is_lock(command) && getenv("LOSSY_NO_LOCKS") ? known_of(file) : NULL;
    if (!it) return syscall(SYS_fcntl, file, command, argument);
    begin();
    account('L', ENOLCK, it->number, command, it->name, "", 0);
    return end(-1, ENOLCK);
}

#define CONTROLS(NAME) \
    int NAME(int file, int command, ...) { \
        va_list rest; \
        va_start(rest, command); \
        void *argument = va_arg(rest, void *); \
        va_end(rest); \
        return lossy_control(file, command, argument); \
    }
CONTROLS(fcntl)
CONTROLS(fcntl64)
