/* A disk that stops, is full, or lies: it is loaded before the C library, by LD_PRELOAD, into the process of a node.

   The calls by which a node changes its files or writes to standard output are counted from 1: write, fsync, fdatasync, ftruncate,
   rename, and unlink of a segment, a file whose name has ten digits. With STOP=N in the environment the process is killed before call
   N, with STOP=N+ behind it, with STOP=N/ when it has done half of a write (before any other call). With FAIL=N call N fails; where
   that is a write it does half, and all writes behind it fail, as on a full disk. With FAIL=N+ all that follow fail too. Calls on
   standard output don't fail. With LIES=1 a sync does nothing, and says that it did. At the end of the process, also where it is
   killed here or ends by _exit, the calls stand in the file that CALLS names, a letter each: w, s, t, r, u, S for a sync of a folder,
   o for a write to standard output.

   With FULL=FILE, and while FILE is there, each write to a segment does half and the rest finds no space.

   With UNREAD=FILE, and while FILE is there, each read of a segment fails, as of a disk that has lost what is there.

   With NAMES=1 a sync of a folder leaves a file NAME.named beside each of its files that has no dot in its name.

   A segment that is removed is kept, with .gone behind, until its folder is synced.

   How much of a file is synced stands in the file of its name with .synced behind. What a rename replaces is kept, as with .before behind,
   until the folder is synced; where it replaces nothing, that is marked, by .fresh. So who starts the node again can take away what a
   loss of power would take away. While a rename or the sync of a folder is amid its steps the folder is locked (flock): who has that lock,
   kills the process and looks at the files finds all of a call's steps done, or none. */
#define _GNU_SOURCE
#include <dirent.h>
#include <errno.h>
#include <fcntl.h>
#include <limits.h>
#include <signal.h>
#include <stdio.h>
#include <stdlib.h>
#include <string.h>
#include <sys/file.h>
#include <sys/stat.h>
#include <sys/syscall.h>
#include <unistd.h>

enum { MOST = 100000 };
static char calls[MOST];
static long number;
static int is_full;

static void tell(void) {
    const char *name = getenv("CALLS");
    int file = name ? open(name, O_WRONLY | O_CREAT | O_TRUNC, 0644) : -1;
    if (file < 0) return;
    syscall(SYS_write, file, calls, number < MOST ? number : MOST);
    close(file);
}

__attribute__((destructor)) static void at_end(void) { tell(); }

/* A process that ends by this runs no destructor. */
void _exit(int status) {
    tell();
    for (;;) syscall(SYS_exit_group, status);
}

static void stop(void) {
    tell();
    kill(getpid(), SIGKILL);
    for (;;) pause();
}

/* Whether the variable names this call, and what stands behind its number. */
static int is_now(const char *variable, char *how) {
    const char *text = getenv(variable);
    if (!text) return 0;
    char *rest;
    long at = strtol(text, &rest, 10);
    *how = *rest;
    return at == number || (*variable == 'F' && *rest == '+' && number > at);
}

/* Counts a call. Whether it is to be done by half, and to fail. */
static void begin(char kind, int *half, int *fails) {
    if (number < MOST) calls[number] = kind;
    number++;
    char how = 0;
    *fails = kind != 'o' && is_now("FAIL", &how);
    *half = is_now("STOP", &how) && how == '/';
    if (is_now("STOP", &how) && (how == 0 || (how == '/' && kind != 'w' && kind != 'o'))) stop();
}

static void end(void) {
    char how = 0;
    if (is_now("STOP", &how)) stop();
}

static int refuse(int error) {
    errno = error;
    return -1;
}

static void drop(const char *name) { syscall(SYS_unlinkat, AT_FDCWD, name, 0); }

/* Whether the path is that of a segment. */
static int is_segment(const char *path) {
    const char *last = strrchr(path, '/');
    last = last ? last + 1 : path;
    return strlen(last) == 10 && strspn(last, "0123456789") == 10;
}

static int is_file(int file, mode_t kind) {
    struct stat is;
    return file > 2 && fstat(file, &is) == 0 && (is.st_mode & S_IFMT) == kind;
}

static void name_of(int file, char *name) {
    char link[64];
    snprintf(link, sizeof link, "/proc/self/fd/%d", file);
    ssize_t length = readlink(link, name, PATH_MAX - 16);
    name[length > 0 ? length : 0] = 0;
}

/* Whether it is a segment, and there is no space for it. */
static int has_no_space(int file) {
    char path[PATH_MAX];
    const char *full = getenv("FULL");
    if (!full || access(full, F_OK) || !is_file(file, S_IFREG)) return 0;
    name_of(file, path);
    return is_segment(path);
}

ssize_t pread(int file, void *bytes, size_t size, off_t at) {
    char path[PATH_MAX];
    const char *unread = getenv("UNREAD");
    if (unread && !access(unread, F_OK) && is_file(file, S_IFREG)) {
        name_of(file, path);
        if (is_segment(path)) return refuse(EIO);
    }
    return syscall(SYS_pread64, file, bytes, size, at);
}

ssize_t write(int file, const void *bytes, size_t size) {
    if (file != 1 && !is_file(file, S_IFREG)) return syscall(SYS_write, file, bytes, size);
    int half, fails;
    begin(file == 1 ? 'o' : 'w', &half, &fails);
    if (half || fails || (is_full && file != 1)) {
        ssize_t done = size > 1 && !is_full ? syscall(SYS_write, file, bytes, size / 2) : 0;
        if (half) stop();
        is_full = 1;
        return done > 0 ? done : refuse(ENOSPC);
    }
    if (has_no_space(file)) {
        ssize_t part = size > 1 ? syscall(SYS_write, file, bytes, size / 2) : 0;
        return part > 0 ? part : refuse(ENOSPC);
    }
    ssize_t done = syscall(SYS_write, file, bytes, size);
    end();
    return done;
}

static void beside(char *name, const char *path, const char *ending) { snprintf(name, PATH_MAX, "%.4000s%s", path, ending); }

/* In one write over the number that stood there, so that who is killed here leaves one or the other. */
static void note_synced(int file) {
    char name[PATH_MAX], path[PATH_MAX];
    struct stat is;
    name_of(file, path);
    beside(name, path, ".synced");
    int note = open(name, O_WRONLY | O_CREAT, 0644);
    if (note < 0 || fstat(file, &is)) return;
    char text[32];
    int length = snprintf(text, sizeof text, "%020lld", (long long)is.st_size);
    syscall(SYS_write, note, text, length);
    close(note);
}

static int ends_with(const char *name, const char *ending) {
    size_t length = strlen(name), end = strlen(ending);
    return length >= end && !strcmp(name + length - end, ending);
}

/* The lock of a folder, until it is closed. */
static int lock_of(const char *folder) {
    int lock = open(folder, O_RDONLY | O_DIRECTORY | O_CLOEXEC);
    if (lock >= 0) flock(lock, LOCK_EX);
    return lock;
}

/* The lock of the folder in which the file is. */
static int lock_beside(const char *path) {
    char folder[PATH_MAX];
    snprintf(folder, sizeof folder, "%s", path);
    char *last = strrchr(folder, '/');
    if (last) *last = 0;
    return lock_of(last ? folder : ".");
}

/* A crash leaves the names that are in the folder. */
static void note_names(DIR *folder) {
    const char *names = getenv("NAMES");
    if (!names || *names != '1') return;
    char name[PATH_MAX];
    for (struct dirent *it; (it = readdir(folder));)
        if (!strchr(it->d_name, '.')) {
            beside(name, it->d_name, ".named");
            close(openat(dirfd(folder), name, O_WRONLY | O_CREAT, 0644));
        }
    rewinddir(folder);
}

/* No rename in the folder can be undone any more, whoever made it. */
static void note_folder(int file) {
    char path[PATH_MAX];
    name_of(file, path);
    DIR *folder = opendir(path);
    if (!folder) return;
    int lock = lock_of(path);
    note_names(folder);
    for (struct dirent *it; (it = readdir(folder));)
        if (ends_with(it->d_name, ".before") || ends_with(it->d_name, ".before.synced") || ends_with(it->d_name, ".fresh") || ends_with(it->d_name, ".gone"))
            unlinkat(dirfd(folder), it->d_name, 0);
    close(lock);
    closedir(folder);
}

static int synced(int file, long call) {
    if (!is_file(file, S_IFREG) && !is_file(file, S_IFDIR)) return syscall(call, file);
    int half, fails, is_folder = is_file(file, S_IFDIR);
    begin(is_folder ? 'S' : 's', &half, &fails);
    if (fails) return refuse(EIO);
    if (!getenv("LIES")) {
        if (is_folder) note_folder(file);
        else note_synced(file);
    }
    end();
    return 0;
}

int fsync(int file) { return synced(file, SYS_fsync); }
int fdatasync(int file) { return synced(file, SYS_fdatasync); }

int ftruncate(int file, off_t size) {
    int half, fails;
    begin('t', &half, &fails);
    if (fails) return refuse(EIO);
    int done = syscall(SYS_ftruncate, file, size);
    end();
    return done;
}

int unlink(const char *path) {
    if (!is_segment(path)) return syscall(SYS_unlinkat, AT_FDCWD, path, 0);
    char name[PATH_MAX];
    int half, fails;
    begin('u', &half, &fails);
    if (fails) return refuse(EIO);
    beside(name, path, ".gone");
    drop(name);
    if (link(path, name)) drop(name);
    int done = syscall(SYS_unlinkat, AT_FDCWD, path, 0);
    end();
    return done;
}

int rename(const char *from, const char *to) {
    char name[PATH_MAX], other[PATH_MAX];
    int half, fails;
    begin('r', &half, &fails);
    if (fails) return refuse(ENOSPC);
    int lock = lock_beside(to);
    beside(name, to, ".before");
    drop(name);
    if (link(to, name)) {
        beside(name, to, ".fresh");
        close(open(name, O_WRONLY | O_CREAT, 0644));
    } else {
        beside(name, to, ".synced");
        beside(other, to, ".before.synced");
        syscall(SYS_rename, name, other);
    }
    beside(name, from, ".synced");
    beside(other, to, ".synced");
    syscall(SYS_rename, name, other);
    int done = syscall(SYS_rename, from, to);
    close(lock);
    end();
    return done;
}
