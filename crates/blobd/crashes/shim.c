/* A library for LD_PRELOAD that watches the calls which a blobd makes on its log and on the files of contents, and a registryd on its
   database, for crash_tests, bench/durable.py and registryd/tests/crashes.py.

   The environment says what it does:
     CRASH_TRACE=PATH      appends a line for each call that succeeded: `sync NAME LENGTH` (of the file when the call began) or
                           `cut NAME LENGTH`, before the call returns; and before the call `rename OLD NEW` and `unlink NAME 0`. NAME
                           is that of a file of the log (`log.1`, `base.3`, `log.new`, `longest`, ..) or the path of a folder. For
                           the files of contents, whose NAME is `contents/TENANT/NUMBER`, also `create NAME 0` and `write NAME OFFSET`
                           before the call, `mkdir NAME 0` before a folder of contents is made, and `begin PATH 0` before one is synced
     CRASH_KEEP=FOLDER     moves the files of the log that the program removes into a folder, and keeps there those that a rename replaces,
                           as `replaced-NAME`. A file of a content is there as `contents%TENANT%NUMBER`
     CRASH_FAILING=PATH    while the file PATH exists, the calls on the files of contents fail whose words it has: `create`, `write`
                           (with ENOSPC, after a half of the bytes), `sync`, `read`, `unlink` (with EIO)
     CRASH_WRITES=PATH     appends each change of a file of the database that succeeded: a line `write NAME OFFSET LENGTH` and the
                           bytes written, `sync NAME LENGTH`, `cut NAME LENGTH` or `unlink NAME 0`. NAME begins with `registry.db`.
                           Appends `sync PATH LENGTH` for the sync of a folder
     CRASH_BASE=PATH       puts the bytes of a file in place of those of `base.new` after each sync of it
     CRASH_KILL=N          kills the program after the N-th call, counted from 1, of which CRASH_TRACE has a line
     CRASH_SYNC_MS=MS      each sync of the log, of the database or of a content takes MS milliseconds longer
     CRASH_FAIL_SYNC=N     the N-th sync of the log, counted from 1, fails with EIO
     CRASH_FAIL_FOLDER_SYNC=N, CRASH_FAIL_REMOVE=N
                           the N-th sync of a folder that has no contents, or removal of a file of the log, fails with EIO
     CRASH_FAIL_CONTENT_SYNC=N, CRASH_FAIL_CONTENT_WRITE=N
                           the N-th sync of the file of a content, or write to it, fails as those of the log do
     CRASH_FAIL_WRITE=N    the N-th write to the log writes one half of its bytes, and the write after it fails with ENOSPC
     CRASH_FAIL_READ=N     the N-th read of a file of the log fails with EIO
     CRASH_FAIL_DATABASE_SYNC=N, CRASH_FAIL_DATABASE_WRITE=N
                           the same for the files of the database */
#define _GNU_SOURCE
#include <dlfcn.h>
#include <errno.h>
#include <fcntl.h>
#include <signal.h>
#include <stdarg.h>
#include <stdatomic.h>
#include <stdio.h>
#include <stdlib.h>
#include <string.h>
#include <sys/stat.h>
#include <sys/uio.h>
#include <time.h>
#include <unistd.h>

#define REAL(name) ((__typeof__(&name)) dlsym(RTLD_NEXT, #name))

/* The kinds of files: those of the log, of the database, of contents, and the length of the longest content in the log. */
enum { LOG, DATABASE, CONTENT, LONGEST, KINDS };

/* The syncs and writes of the files of each kind. */
static atomic_int syncs[KINDS], writes[KINDS];

/* The variables with the number of the sync and of the write that fails, for each kind. */
static const char *const failing_syncs[KINDS] = {"CRASH_FAIL_SYNC", "CRASH_FAIL_DATABASE_SYNC", "CRASH_FAIL_CONTENT_SYNC", "CRASH_FAIL_LONGEST_SYNC"};
static const char *const failing_writes[KINDS] = {"CRASH_FAIL_WRITE", "CRASH_FAIL_DATABASE_WRITE", "CRASH_FAIL_CONTENT_WRITE", "CRASH_FAIL_LONGEST_WRITE"};

/* The syncs of folders, and the removals and reads of files of the log. */
static atomic_int folder_syncs, removals, reads;

/* The calls on the log, on contents and on folders, the writes to contents that CRASH_TRACE has, and the times that contents were opened to be
   written. */
static atomic_int calls;

/* The number of an environment variable, or 0. */
static long number_of(const char *name) {
    const char *text = getenv(name);
    return text ? atol(text) : 0;
}

/* The last component of a path, if it is that of a file of a log: `log`, or `log.` or `base.` and a number or `new`; or `longest` or
   `longest.new`. */
static const char *log_name(const char *path) {
    const char *slash = strrchr(path, '/');
    const char *name = slash ? slash + 1 : path;
    if (!strcmp(name, "longest") || !strcmp(name, "longest.new"))
        return name;
    size_t front = !strncmp(name, "log.", 4) ? 4 : !strncmp(name, "base.", 5) ? 5 : 0;
    const char *rest = name + front;
    int is_numbered = front && *rest && !rest[strspn(rest, "0123456789")];
    return is_numbered || (front && !strcmp(rest, "new")) || !strcmp(name, "log") ? name : NULL;
}

/* The last component of a path, if it is that of a file of a database. */
static const char *database_name(const char *path) {
    const char *slash = strrchr(path, '/');
    const char *name = slash ? slash + 1 : path;
    return strncmp(name, "registry.db", 11) ? NULL : name;
}

/* The part `contents`, `contents/TENANT` or `contents/TENANT/NUMBER` of a path that ends with it, or NULL. */
static const char *contents_part(const char *path) {
    const char *found = strstr(path, "/contents");
    if (!found || (found[9] && found[9] != '/'))
        return NULL;
    return found + 1;
}

/* The part `contents/TENANT/NUMBER` of the path of a content, or NULL. */
static const char *content_name(const char *path) {
    const char *name = contents_part(path);
    const char *tenant = name ? strchr(name, '/') : NULL;
    const char *number = tenant ? strchr(tenant + 1, '/') : NULL;
    if (!number || !number[1] || number[1 + strspn(number + 1, "0123456789")])
        return NULL;
    return name;
}

/* The kind of a file with this name. */
static int kind_of(const char *name) {
    return database_name(name) ? DATABASE : !strncmp(name, "contents/", 9) ? CONTENT : !strncmp(name, "longest", 7) ? LONGEST : LOG;
}

/* Whether calls of this kind on contents fail now. */
static int is_failing(const char *call) {
    const char *path = getenv("CRASH_FAILING");
    char text[256];
    int fd = path ? open(path, O_RDONLY | O_CLOEXEC) : -1;
    if (fd < 0)
        return 0;
    ssize_t count = REAL(read)(fd, text, sizeof text - 1);
    close(fd);
    text[count > 0 ? count : 0] = 0;
    return strstr(text, call) != NULL;
}

/* The name of an open log, of an open file of a database or of an open content, the path of a folder, or NULL. `path` has room for 4096
   bytes. Writes its length. */
static const char *name_of(int fd, char *path, long long *length) {
    struct stat file;
    char link[64];
    if (fstat(fd, &file) || (!S_ISREG(file.st_mode) && !S_ISDIR(file.st_mode)))
        return NULL;
    *length = file.st_size;
    snprintf(link, sizeof link, "/proc/self/fd/%d", fd);
    ssize_t count = readlink(link, path, 4095);
    if (count < 0)
        return NULL;
    path[count] = 0;
    if (S_ISDIR(file.st_mode))
        return path;
    const char *content = content_name(path), *name = log_name(path);
    return content ? content : name ? name : database_name(path);
}

/* Appends a line and bytes to the file that an environment variable names. A test without its trace would be wrong, so the program ends
   if that fails. */
static void appends(const char *variable, const char *line, const void *bytes, size_t count) {
    const char *path = getenv(variable);
    if (!path)
        return;
    int fd = open(path, O_WRONLY | O_CREAT | O_APPEND | O_CLOEXEC, 0666);
    struct iovec parts[] = {{(void *) line, strlen(line)}, {(void *) bytes, count}};
    if (fd < 0 || REAL(writev)(fd, parts, 2) != (ssize_t) (strlen(line) + count))
        abort();
    close(fd);
}

/* Kills the program if this was the call for it. */
static void counts_call(void) {
    if (++calls == number_of("CRASH_KILL"))
        kill(getpid(), SIGKILL);
}

/* Appends a line about a call on a file or a folder. */
static void traces(const char *name, const char *line) {
    if (!database_name(name))
        appends("CRASH_TRACE", line, NULL, 0);
    if ((*name == '/' && !contents_part(name)) || database_name(name))
        appends("CRASH_WRITES", line, NULL, 0);
}

/* Puts the bytes of the file that CRASH_BASE names, at most a MiB, in place of those of an open file. */
static void exchanges(int fd) {
    static char bytes[1 << 20];
    int from = open(getenv("CRASH_BASE"), O_RDONLY | O_CLOEXEC);
    ssize_t count = read(from, bytes, sizeof bytes);
    if (from < 0 || count < 0 || REAL(pwrite)(fd, bytes, count, 0) != count || REAL(ftruncate)(fd, count))
        abort();
    close(from);
}

/* Waits, and returns whether the sync of a file or folder fails. */
static int fails_to_sync(const char *name) {
    if (*name == '/')
        return !contents_part(name) && ++folder_syncs == number_of("CRASH_FAIL_FOLDER_SYNC");
    long pause = number_of("CRASH_SYNC_MS");
    nanosleep(&(struct timespec){pause / 1000, pause % 1000 * 1000000}, NULL);
    int kind = kind_of(name);
    return ++syncs[kind] == number_of(failing_syncs[kind]) || (kind == CONTENT && is_failing("sync"));
}

static int sync_by(int (*real)(int), int fd) {
    char path[4096], line[4200];
    long long length;
    const char *name = name_of(fd, path, &length);
    if (!name)
        return real(fd);
    if (fails_to_sync(name)) {
        errno = EIO;
        return -1;
    }
    if (*name == '/' && contents_part(name)) {
        snprintf(line, sizeof line, "begin %s 0\n", name);
        traces(name, line);
    }
    int result = real(fd);
    if (result == 0 && !strcmp(name, "base.new") && getenv("CRASH_BASE"))
        exchanges(fd);
    snprintf(line, sizeof line, "sync %s %lld\n", name, length);
    if (result == 0) {
        traces(name, line);
        if (!database_name(name))
            counts_call();
    }
    return result;
}

int fdatasync(int fd) { return sync_by(REAL(fdatasync), fd); }
int fsync(int fd) { return sync_by(REAL(fsync), fd); }

static int cut_by(int (*real)(int, off_t), int fd, off_t length) {
    char path[4096], line[4200];
    long long before;
    const char *name = name_of(fd, path, &before);
    int result = real(fd, length);
    if (name && result == 0) {
        snprintf(line, sizeof line, "cut %s %lld\n", name, (long long) length);
        traces(name, line);
        if (!database_name(name))
            counts_call();
    }
    return result;
}

int ftruncate(int fd, off_t length) { return cut_by(REAL(ftruncate), fd, length); }
int ftruncate64(int fd, off_t length) { return cut_by(REAL(ftruncate64), fd, length); }

int rename(const char *from, const char *to) {
    const char *old = log_name(from), *new = log_name(to);
    char line[1024], place[4096];
    if (!old || !new)
        return REAL(rename)(from, to);
    snprintf(line, sizeof line, "rename %.255s %.255s\n", old, new);
    traces(new, line);
    if (getenv("CRASH_KEEP")) {
        snprintf(place, sizeof place, "%s/replaced-%.255s", getenv("CRASH_KEEP"), new);
        REAL(unlink)(place);
        if (link(to, place) && errno != ENOENT)
            abort();
    }
    int result = REAL(rename)(from, to);
    counts_call();
    return result;
}

/* Removes a file of a log, or moves it into the folder for such files. */
static int removes_log(const char *path, const char *name) {
    const char *kept = getenv("CRASH_KEEP");
    char line[1024], place[4096];
    if (access(path, F_OK))
        return REAL(unlink)(path);
    if (++removals == number_of("CRASH_FAIL_REMOVE")) {
        errno = EIO;
        return -1;
    }
    snprintf(line, sizeof line, "unlink %.255s 0\n", name);
    traces(name, line);
    snprintf(place, sizeof place, "%s/%s", kept ? kept : "", name);
    int result = kept ? REAL(rename)(path, place) : REAL(unlink)(path);
    counts_call();
    return result;
}

/* Removes the file of a content, or moves it into the folder for such files. */
static int removes_content(const char *path, const char *name) {
    const char *kept = getenv("CRASH_KEEP");
    char line[1024], place[4096];
    if (access(path, F_OK))
        return REAL(unlink)(path);
    if (is_failing("unlink")) {
        errno = EIO;
        return -1;
    }
    snprintf(line, sizeof line, "unlink %.900s 0\n", name);
    traces(name, line);
    size_t front = kept ? (size_t) snprintf(place, sizeof place - 1024, "%s/", kept) : 0;
    snprintf(place + front, 1024, "%.900s", name);
    for (char *at = place + front; *at; at++)
        *at = *at == '/' ? '%' : *at;
    int result = kept ? REAL(rename)(path, place) : REAL(unlink)(path);
    counts_call();
    return result;
}

int unlink(const char *path) {
    const char *name = database_name(path);
    char line[4200];
    if (content_name(path))
        return removes_content(path, content_name(path));
    if (log_name(path))
        return removes_log(path, log_name(path));
    int result = REAL(unlink)(path);
    if (result == 0 && name) {
        snprintf(line, sizeof line, "unlink %.255s 0\n", name);
        traces(name, line);
    }
    return result;
}

/* Appends what was written to a database, at an offset or, if that is -1, in front of the descriptor's own. */
static ssize_t keeps(int fd, const void *bytes, ssize_t count, off_t offset) {
    char path[4096], line[4200];
    long long length;
    if (count <= 0 || !getenv("CRASH_WRITES"))
        return count;
    int before = errno;
    const char *name = name_of(fd, path, &length);
    if (name && database_name(name)) {
        long long place = offset < 0 ? lseek(fd, 0, SEEK_CUR) - count : offset;
        snprintf(line, sizeof line, "write %s %lld %zd\n", name, place, count);
        appends("CRASH_WRITES", line, bytes, count);
    }
    errno = before;
    return count;
}

/* Notes a write to a content at an offset or, if that is -1, at the descriptor's own. Returns whether it was one. */
static int notes_write(int fd, off_t offset) {
    char path[4096], line[4200];
    long long length;
    if (!getenv("CRASH_TRACE"))
        return 0;
    int before = errno;
    const char *name = name_of(fd, path, &length);
    int is_content = name && *name != '/' && kind_of(name) == CONTENT;
    if (is_content) {
        snprintf(line, sizeof line, "write %s %lld\n", name, offset < 0 ? (long long) lseek(fd, 0, SEEK_CUR) : (long long) offset);
        traces(name, line);
    }
    errno = before;
    return is_content;
}

/* The number of bytes that a write to a log, a database or a content may write: all, or a half, or -1 if it fails. */
static ssize_t room_for(int fd, size_t count) {
    char path[4096];
    long long length;
    int is_watched = getenv("CRASH_FAILING") != NULL;
    for (int kind = 0; kind < KINDS; kind++)
        is_watched |= number_of(failing_writes[kind]) != 0;
    const char *name = is_watched ? name_of(fd, path, &length) : NULL;
    if (!name || *name == '/')
        return count;
    int kind = kind_of(name), now = ++writes[kind], failing = number_of(failing_writes[kind]);
    if ((failing && now == failing + 1) || (kind == CONTENT && count < 2 && is_failing("write"))) {
        errno = ENOSPC;
        return -1;
    }
    int is_half = (failing && now == failing) || (kind == CONTENT && is_failing("write"));
    return is_half ? (ssize_t) (count / 2) : (ssize_t) count;
}

/* Whether a read of a file fails. */
static int fails_to_read(int fd) {
    char path[4096];
    long long length;
    long failing = number_of("CRASH_FAIL_READ");
    const char *name = failing || getenv("CRASH_FAILING") ? name_of(fd, path, &length) : NULL;
    if (!name || *name == '/')
        return 0;
    int kind = kind_of(name), fails = kind == CONTENT ? is_failing("read") : kind == LOG && failing && ++reads == failing;
    if (fails)
        errno = EIO;
    return fails;
}

ssize_t read(int fd, void *bytes, size_t count) { return fails_to_read(fd) ? -1 : REAL(read)(fd, bytes, count); }

ssize_t pread(int fd, void *bytes, size_t count, off_t offset) { return fails_to_read(fd) ? -1 : REAL(pread)(fd, bytes, count, offset); }

ssize_t pread64(int fd, void *bytes, size_t count, off_t offset) { return fails_to_read(fd) ? -1 : REAL(pread64)(fd, bytes, count, offset); }

/* Counts a write, if it was one to a content. */
static ssize_t counts_write(int is_content, ssize_t result) {
    int before = errno;
    if (is_content)
        counts_call();
    errno = before;
    return result;
}

ssize_t write(int fd, const void *bytes, size_t count) {
    ssize_t room = room_for(fd, count);
    int is_content = room >= 0 && notes_write(fd, -1);
    return room < 0 ? room : counts_write(is_content, keeps(fd, bytes, REAL(write)(fd, bytes, room), -1));
}

ssize_t pwrite(int fd, const void *bytes, size_t count, off_t offset) {
    ssize_t room = room_for(fd, count);
    int is_content = room >= 0 && notes_write(fd, offset);
    return room < 0 ? room : counts_write(is_content, keeps(fd, bytes, REAL(pwrite)(fd, bytes, room, offset), offset));
}

ssize_t pwrite64(int fd, const void *bytes, size_t count, off_t offset) {
    ssize_t room = room_for(fd, count);
    int is_content = room >= 0 && notes_write(fd, offset);
    return room < 0 ? room : counts_write(is_content, keeps(fd, bytes, REAL(pwrite64)(fd, bytes, room, offset), offset));
}

ssize_t writev(int fd, const struct iovec *parts, int count) {
    size_t all = 0;
    for (int part = 0; part < count; part++)
        all += parts[part].iov_len;
    ssize_t room = room_for(fd, all);
    if (room < 0)
        return room;
    int is_content = notes_write(fd, -1);
    ssize_t result = (size_t) room == all ? REAL(writev)(fd, parts, count) : REAL(write)(fd, parts[0].iov_base, parts[0].iov_len / 2);
    return counts_write(is_content, result);
}

/* Notes that a file of a content is created, or lets that fail. Returns 1 if it is, and -1 if it fails. */
static int notes_creation(const char *path, int flags) {
    char line[4200];
    const char *name = flags & O_CREAT ? content_name(path) : NULL;
    if (!name || !access(path, F_OK))
        return 0;
    if (is_failing("create")) {
        errno = ENOSPC;
        return -1;
    }
    snprintf(line, sizeof line, "create %s 0\n", name);
    traces(name, line);
    return 1;
}

static int counts_creation(int is_new, int fd) {
    int before = errno;
    if (is_new)
        counts_call();
    errno = before;
    return fd;
}

/* The mode of a file that is created. */
#define MODE(flags) ({ \
    va_list more; \
    va_start(more, flags); \
    mode_t mode = (flags) & (O_CREAT | O_TMPFILE) ? va_arg(more, mode_t) : 0; \
    va_end(more); \
    mode; \
})

int open(const char *path, int flags, ...) {
    mode_t mode = MODE(flags);
    int is_new = notes_creation(path, flags);
    return is_new < 0 ? -1 : counts_creation(is_new, REAL(open)(path, flags, mode));
}

int open64(const char *path, int flags, ...) {
    mode_t mode = MODE(flags);
    int is_new = notes_creation(path, flags);
    return is_new < 0 ? -1 : counts_creation(is_new, REAL(open64)(path, flags, mode));
}

int openat(int folder, const char *path, int flags, ...) {
    mode_t mode = MODE(flags);
    int is_new = notes_creation(path, flags);
    return is_new < 0 ? -1 : counts_creation(is_new, REAL(openat)(folder, path, flags, mode));
}

int openat64(int folder, const char *path, int flags, ...) {
    mode_t mode = MODE(flags);
    int is_new = notes_creation(path, flags);
    return is_new < 0 ? -1 : counts_creation(is_new, REAL(openat64)(folder, path, flags, mode));
}

/* Notes that a folder of contents is made. */
static int notes_folder(const char *path) {
    char line[4200];
    const char *name = contents_part(path);
    if (!name || !access(path, F_OK))
        return 0;
    snprintf(line, sizeof line, "mkdir %s 0\n", name);
    traces(name, line);
    return 1;
}

int mkdir(const char *path, mode_t mode) {
    int is_new = notes_folder(path);
    return counts_creation(is_new, REAL(mkdir)(path, mode));
}

int mkdirat(int folder, const char *path, mode_t mode) {
    int is_new = notes_folder(path);
    return counts_creation(is_new, REAL(mkdirat)(folder, path, mode));
}
