/* Cuts a process off at one step of what it writes to one folder, so that a test can see what is left there. It is a
 * library to preload; the program under it is the real one, unchanged:
 *
 *     gcc -std=c11 -Wall -Wextra -Werror -shared -fPIC -o target/tests/cut.so tests/cut.c
 *     CUT_FOLDER=books CUT_AT=3 LD_PRELOAD=target/tests/cut.so till ...
 *
 * A step is a call to open (a file of the folder for writing, or the folder itself), to write, fsync, fdatasync or
 * close (what was so opened), or to rename (into the folder). Steps count from 1, in each process anew. Reads are no
 * steps. Calls that the C library makes inside itself, as for fopen and fwrite, are not seen; those of Rust's standard
 * library are. One thread at a time may take steps.
 *
 *     CUT_FOLDER=PATH    the folder; where it is not set, nothing is cut
 *     CUT_AT=N           the process is killed (SIGKILL) just before step N
 *     CUT_AT=exit        the process is killed when it is about to end by itself
 *     CUT_BYTES=B        the process is killed when B bytes in all were written: a write that would cross that border
 *                        stops at it. With 0 it is killed before the first write
 *     CUT_ERROR=NAME     the process is not killed: step N fails with NAME (ENOSPC, EIO or EINTR), and after B bytes
 *                        every write does
 *     CUT_SHORT=K        no write takes more than K bytes, and each is interrupted (EINTR) once before it takes any
 *     CUT_POWER=1        a kill is as hard as loss of power may be: every file is as long as when it was last flushed,
 *                        empty if it never was, and every rename is undone after which the folder was not flushed.
 *                        Without it, all that was written stands
 *     CUT_LOG=FILE       each step is added to FILE as a line: its call and the names without their folders */
#define _GNU_SOURCE
#undef _FORTIFY_SOURCE /* whose open is another one */
#include <errno.h>
#include <fcntl.h>
#include <limits.h>
#include <signal.h>
#include <stdarg.h>
#include <stdio.h>
#include <stdlib.h>
#include <string.h>
#include <sys/stat.h>
#include <sys/syscall.h>
#include <unistd.h>

enum { MOST_FILES = 64, MOST_RENAMES = 64, NONE = -1 };

/* What was opened in the folder, until it is closed and flushed. */
struct watched {
    int used;
    int fd;        /* the program's; NONE once it is closed */
    int kept;      /* ours, by which unflushed bytes are taken back; NONE where that is not asked for */
    int unflushed; /* whether anything was written, or cut to nothing, since the last flush */
    off_t flushed_length;
    char name[NAME_MAX + 1];
};

/* A rename that the folder has not flushed. */
struct renamed {
    char from[PATH_MAX], to[PATH_MAX];
    int replaced; /* what stood at `to` before; NONE where nothing did */
};

static struct watched files[MOST_FILES];
static struct renamed renames[MOST_RENAMES];
static int rename_count;

static int ready, power_fails, cut_at_exit, error;
static const char *folder, *log_path;
static long step_count, cut_at, bytes_left = NONE, most_at_once, interrupted;

static void give_up(const char *why) {
    dprintf(STDERR_FILENO, "cut: %s\n", why);
    abort();
}

static long number_in(const char *name, long otherwise) {
    const char *value = getenv(name);
    return value == NULL || *value == '\0' ? otherwise : strtol(value, NULL, 10);
}

static int error_in(const char *name) {
    const char *value = getenv(name);
    if (value == NULL || *value == '\0') return 0;
    if (strcmp(value, "ENOSPC") == 0) return ENOSPC;
    if (strcmp(value, "EIO") == 0) return EIO;
    if (strcmp(value, "EINTR") == 0) return EINTR;
    give_up("CUT_ERROR is none of ENOSPC, EIO, EINTR");
    return 0;
}

static void read_settings(void) {
    if (ready) return;
    ready = 1;
    folder = getenv("CUT_FOLDER");
    log_path = getenv("CUT_LOG");
    cut_at = number_in("CUT_AT", 0);
    cut_at_exit = getenv("CUT_AT") != NULL && strcmp(getenv("CUT_AT"), "exit") == 0;
    bytes_left = number_in("CUT_BYTES", NONE);
    most_at_once = number_in("CUT_SHORT", 0);
    power_fails = number_in("CUT_POWER", 0) != 0;
    error = error_in("CUT_ERROR");
}

/* The calls themselves, past this library. */
static int real_open(int at, const char *path, int flags, mode_t mode) {
    return syscall(SYS_openat, at, path, flags, mode);
}

static int real_close(int fd) { return syscall(SYS_close, fd); }

static ssize_t real_write(int fd, const void *bytes, size_t count) { return syscall(SYS_write, fd, bytes, count); }

static int real_rename(int from_at, const char *from, int to_at, const char *to, unsigned flags) {
    return syscall(SYS_renameat2, from_at, from, to_at, to, flags);
}

static const char *name_of(const char *path) {
    const char *slash = strrchr(path, '/');
    return slash == NULL ? path : slash + 1;
}

static int is_folder(int at, const char *path) {
    struct stat wanted, found;
    if (folder == NULL || stat(folder, &wanted) != 0 || fstatat(at, path, &found, 0) != 0) return 0;
    return wanted.st_dev == found.st_dev && wanted.st_ino == found.st_ino;
}

static int is_in_folder(int at, const char *path) {
    char above[PATH_MAX] = ".";
    size_t length = name_of(path) - path;
    if (length >= sizeof above) return 0;
    if (length > 0) {
        memcpy(above, path, length);
        above[length] = '\0';
    }
    return is_folder(at, above);
}

static struct watched *watched_by(int fd) {
    if (fd == NONE) return NULL;
    for (int i = 0; i < MOST_FILES; i++)
        if (files[i].used && files[i].fd == fd) return &files[i];
    return NULL;
}

static off_t length_of(int fd) {
    struct stat found;
    return fstat(fd, &found) == 0 ? found.st_size : 0;
}

static void watch(int fd, const char *name, int folder_itself) {
    for (int i = 0; i < MOST_FILES; i++) {
        if (files[i].used) continue;
        files[i] = (struct watched){.used = 1, .fd = fd, .kept = NONE, .unflushed = !folder_itself};
        files[i].flushed_length = length_of(fd);
        snprintf(files[i].name, sizeof files[i].name, "%s", name);
        if (!power_fails || folder_itself) return;
        files[i].kept = fcntl(fd, F_DUPFD_CLOEXEC, 512);
        if (files[i].kept < 0) give_up("no room for files of its own");
        return;
    }
    give_up("more files than can be watched");
}

static void forget(struct watched *file) {
    if (file->kept != NONE) real_close(file->kept);
    file->used = 0;
}

static void copy_to(int from, const char *path) {
    char bytes[4096];
    ssize_t count;
    off_t place = 0;
    int to = real_open(AT_FDCWD, path, O_WRONLY | O_CREAT | O_TRUNC, 0666);
    if (to < 0) give_up("what a rename replaced cannot be put back");
    while ((count = pread(from, bytes, sizeof bytes, place)) > 0) {
        if (real_write(to, bytes, count) != count) give_up("what a rename replaced cannot be written back");
        place += count;
    }
    real_close(to);
}

/* From the last to the first. */
static void undo_renames(void) {
    while (rename_count > 0) {
        struct renamed *last = &renames[--rename_count];
        real_rename(AT_FDCWD, last->to, AT_FDCWD, last->from, 0);
        if (last->replaced != NONE) copy_to(last->replaced, last->to);
    }
}

static void lose_power(void) {
    for (int i = 0; i < MOST_FILES; i++) {
        if (!files[i].used || !files[i].unflushed || files[i].kept == NONE) continue;
        if (ftruncate(files[i].kept, files[i].flushed_length) != 0) give_up("unflushed bytes cannot be taken back");
    }
    undo_renames();
}

static void die(void) {
    if (power_fails) lose_power();
    kill(getpid(), SIGKILL);
    for (;;) pause();
}

__attribute__((destructor)) static void at_exit(void) {
    read_settings();
    if (cut_at_exit) die();
}

static void log_step(const char *call, const char *name, const char *further) {
    if (log_path == NULL) return;
    int log = real_open(AT_FDCWD, log_path, O_WRONLY | O_CREAT | O_APPEND, 0666);
    dprintf(log, "%s %s%s%s\n", call, name, *further == '\0' ? "" : " ", further);
    real_close(log);
}

/* Counts a step. Whether it has to fail; errno then says why. */
static int fails(const char *call, const char *name, const char *further) {
    log_step(call, name, further);
    step_count += 1;
    if (step_count != cut_at) return 0;
    if (error == 0) die();
    errno = error;
    return 1;
}

static int open_watched(int at, const char *path, int flags, mode_t mode) {
    read_settings();
    int for_writing = (flags & O_ACCMODE) != O_RDONLY || (flags & O_CREAT) != 0;
    int folder_itself = !for_writing && is_folder(at, path);
    if (!folder_itself && !(for_writing && is_in_folder(at, path))) return real_open(at, path, flags, mode);
    const char *name = folder_itself ? "." : name_of(path);
    if (fails("open", name, "")) return -1;
    int fd = real_open(at, path, flags, mode);
    if (fd >= 0) watch(fd, name, folder_itself);
    return fd;
}

static mode_t mode_in(int flags, va_list rest) {
    return (flags & (O_CREAT | O_TMPFILE)) != 0 ? va_arg(rest, mode_t) : 0;
}

#define OPEN(name)                                        \
    int name(const char *path, int flags, ...) {          \
        va_list rest;                                     \
        va_start(rest, flags);                            \
        mode_t mode = mode_in(flags, rest);               \
        va_end(rest);                                     \
        return open_watched(AT_FDCWD, path, flags, mode); \
    }
#define OPENAT(name)                                   \
    int name(int at, const char *path, int flags, ...) { \
        va_list rest;                                  \
        va_start(rest, flags);                         \
        mode_t mode = mode_in(flags, rest);            \
        va_end(rest);                                  \
        return open_watched(at, path, flags, mode);    \
    }
OPEN(open)
OPEN(open64)
OPENAT(openat)
OPENAT(openat64)

/* How many of so many bytes a write may take; none if the disk is full. */
static size_t permitted(size_t count) {
    if (most_at_once > 0 && count > (size_t)most_at_once) count = most_at_once;
    if (bytes_left != NONE && count > (size_t)bytes_left) count = bytes_left;
    return count;
}

static ssize_t write_up_to_border(struct watched *file, const void *bytes, size_t wanted) {
    size_t count = permitted(wanted);
    if (count == 0 && wanted > 0) {
        if (error == 0) die();
        errno = error;
        return -1;
    }
    ssize_t written = real_write(file->fd, bytes, count);
    if (written > 0) file->unflushed = 1;
    if (written > 0 && bytes_left != NONE) bytes_left -= written;
    if (bytes_left == 0 && error == 0) die();
    return written;
}

ssize_t write(int fd, const void *bytes, size_t count) {
    struct watched *file = watched_by(fd);
    if (file == NULL) return real_write(fd, bytes, count);
    if (fails("write", file->name, "")) return -1;
    if (most_at_once > 0 && (interrupted = !interrupted)) {
        errno = EINTR;
        return -1;
    }
    return write_up_to_border(file, bytes, count);
}

static void all_renames_stand(void) {
    while (rename_count > 0) {
        int replaced = renames[--rename_count].replaced;
        if (replaced != NONE) real_close(replaced);
    }
}

static int flush(int fd, const char *call, long number) {
    struct watched *file = watched_by(fd);
    if (file != NULL && fails(call, file->name, "")) return -1;
    int result = syscall(number, fd);
    if (file == NULL || result != 0) return result;
    file->unflushed = 0;
    file->flushed_length = length_of(fd);
    if (strcmp(file->name, ".") == 0) all_renames_stand();
    return result;
}

int fsync(int fd) { return flush(fd, "fsync", SYS_fsync); }
int fdatasync(int fd) { return flush(fd, "fdatasync", SYS_fdatasync); }

/* A close that fails closes nevertheless, as it does on Linux. */
int close(int fd) {
    struct watched *file = watched_by(fd);
    if (file == NULL) return real_close(fd);
    int failed = fails("close", file->name, "");
    int why = errno;
    file->fd = NONE;
    if (!file->unflushed || file->kept == NONE) forget(file);
    int result = real_close(fd);
    if (!failed) return result;
    errno = why;
    return -1;
}

static void remember_rename(int from_at, const char *from, int to_at, const char *to) {
    if (from_at != AT_FDCWD || to_at != AT_FDCWD) give_up("a rename between opened folders, which could not be undone");
    if (rename_count == MOST_RENAMES) give_up("more renames than can be undone");
    struct renamed *next = &renames[rename_count++];
    snprintf(next->from, sizeof next->from, "%s", from);
    snprintf(next->to, sizeof next->to, "%s", to);
    next->replaced = real_open(AT_FDCWD, to, O_RDONLY | O_CLOEXEC, 0);
}

static int rename_watched(int from_at, const char *from, int to_at, const char *to, unsigned flags) {
    read_settings();
    if (!is_in_folder(to_at, to)) return real_rename(from_at, from, to_at, to, flags);
    if (fails("rename", name_of(from), name_of(to))) return -1;
    if (power_fails) remember_rename(from_at, from, to_at, to);
    return real_rename(from_at, from, to_at, to, flags);
}

int rename(const char *from, const char *to) { return rename_watched(AT_FDCWD, from, AT_FDCWD, to, 0); }

int renameat(int from_at, const char *from, int to_at, const char *to) {
    return rename_watched(from_at, from, to_at, to, 0);
}

int renameat2(int from_at, const char *from, int to_at, const char *to, unsigned flags) {
    return rename_watched(from_at, from, to_at, to, flags);
}
