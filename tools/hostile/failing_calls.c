/* failing_calls: stands before the C library for `tools/hostile/each`, and lets one call on files go wrong.

   It counts the program's calls. The one with the number EACH_AT goes wrong as EACH_HOW says: `errno N` (the call isn't made and says N),
   `stays N` (and so does each later one of its name on the same path), `lasts N` (and so does each later one of its name, but not on a
   stream), `short` (a read or a write takes half of its bytes), `before`, `half` and `after` (the process is killed before the call, once
   a half was read or written, or after the call), `first` (EACH_FIRST, a command of the shell, is run before it), or `swap` (the paths
   EACH_FOLDER and EACH_LINK are exchanged before it, or the second is moved if nothing is at the first). EACH_TELL is a file that gets a
   line for that call, and for each call if EACH_AT is 0: its name, and the path or what lies open under its number. With `swap` the line
   says whether the folder was opened before. What changed before EACH_OLD, in nanoseconds, is a day older as a statx says it. */
#define _GNU_SOURCE
#include <dirent.h>
#include <dlfcn.h>
#include <errno.h>
#include <fcntl.h>
#include <signal.h>
#include <stdarg.h>
#include <stdio.h>
#include <stdlib.h>
#include <string.h>
#include <sys/stat.h>
#include <sys/syscall.h>
#include <unistd.h>

enum { WELL, ERRNO, STAYS, LASTS, SHORT, BEFORE, HALF, AFTER, FIRST, SWAP };
static long made, at = -1, said, old;
static struct stat folder; /* that is exchanged */
static const char *seen = "unopened\n";
static int how, telling = -1;
static char staying[4200]; /* the name and the path of the call whose error stays */

static void begin(void) {
    const char *text = getenv("EACH_AT"), *kind = getenv("EACH_HOW"), *tell = getenv("EACH_TELL");
    at = text ? atol(text) : 0;
    kind = kind ? kind : "";
    static const char *kinds[] = {"", "errno ", "stays ", "lasts ", "short", "before", "half", "after", "first", "swap"};
    for (how = SWAP; how > WELL && strncmp(kind, kinds[how], strlen(kinds[how])); how--) {}
    said = how == ERRNO || how == STAYS || how == LASTS ? atol(kind + 6) : 0;
    old = getenv("EACH_OLD") ? atol(getenv("EACH_OLD")) : 0;
    if (how == SWAP) syscall(SYS_newfstatat, AT_FDCWD, getenv("EACH_FOLDER"), &folder, 0);
    if (tell) telling = syscall(SYS_openat, AT_FDCWD, tell, O_WRONLY | O_CREAT | O_APPEND | O_CLOEXEC, 0600);
}

/* A call's name, and the path that it is given, below an open folder too, or what lies open under its number. */
static int show(char *line, size_t size, const char *name, const char *path, int fd) {
    char place[64], open_path[4096] = "";
    const char *held = path && !strncmp(path, "/proc/self/fd/", 14) ? path + 14 : NULL;
    const char *rest = held ? held + strspn(held, "0123456789") : path ? path : "";
    if (held || !*rest) {
        snprintf(place, sizeof place, "/proc/self/fd/%d", held ? atoi(held) : fd);
        long got = syscall(SYS_readlinkat, AT_FDCWD, place, open_path, sizeof open_path - 1);
        if (got > 0) open_path[got] = 0;
        if (!held && fd < 3) strcpy(open_path, "stream");
    }
    return snprintf(line, size, "%s %s%s\n", name, open_path, rest);
}

static int stays(void) { return how == STAYS || how == LASTS; }
static void end(void) { syscall(SYS_kill, syscall(SYS_getpid), SIGKILL); }

/* Runs a command in which nothing goes wrong, or exchanges two paths. */
static int meanwhile(void) {
    if (how == FIRST) return setenv("EACH_AT", "1000000000", 1), system(getenv("EACH_FIRST")), WELL;
    if (telling >= 0) syscall(SYS_write, telling, seen, strlen(seen));
    const char *place = getenv("EACH_FOLDER"), *link = getenv("EACH_LINK");
    if (syscall(SYS_renameat2, AT_FDCWD, place, AT_FDCWD, link, 2 /* RENAME_EXCHANGE */)) syscall(SYS_renameat2, AT_FDCWD, link, AT_FDCWD, place, 0);
    return WELL;
}

/* What is to go wrong with this call. */
static int due(const char *name, const char *path, int fd) {
    if (at < 0) begin();
    if (fd >= 0 && fd == telling) return WELL;
    long number = __sync_add_and_fetch(&made, 1);
    char line[4200];
    if (at != 0 && number != at && (!stays() || number < at)) return WELL;
    int length = show(line, sizeof line, name, path, fd);
    if (number > at && how == LASTS && fd >= 0 && fd < 3) return WELL;
    if (number > at && at != 0 && strncmp(line, staying, how == LASTS ? strlen(name) + 1 : sizeof line)) return WELL;
    strcpy(staying, line);
    if (telling >= 0 && how != SWAP && (at == 0 || number == at)) syscall(SYS_write, telling, line, length);
    if (at == 0) return WELL;
    if (how == BEFORE) end();
    if (how == FIRST || how == SWAP) return meanwhile();
    if (how == ERRNO || stays()) errno = said;
    return stays() ? ERRNO : how;
}

#define REAL(name) ((__typeof__(&name))dlsym(RTLD_NEXT, #name))
/* A call that fails or not: the answer of one that was made, which is the last where the process is to be killed behind it. */
#define MADE(type, call) type answer = call; int kept = errno; if (wrong == AFTER || wrong == HALF) end(); errno = kept; return answer
#define WHOLE(type, name, parameters, words, path, fd)            \
    type name parameters {                                        \
        int wrong = due(#name, path, fd);                         \
        if (wrong == ERRNO) return -1;                            \
        MADE(type, REAL(name) words);                             \
    }
#define IN_PART(name, bytes)                                      \
    ssize_t name(int fd, bytes *data, size_t count) {             \
        int wrong = due(#name, NULL, fd);                         \
        if (wrong == ERRNO) return -1;                            \
        if ((wrong == SHORT || wrong == HALF) && count > 1) count /= 2; \
        MADE(ssize_t, REAL(name)(fd, data, count));               \
    }

IN_PART(read, void)
IN_PART(write, const void)
WHOLE(ssize_t, getdents64, (int fd, void *data, size_t count), (fd, data, count), NULL, fd)
WHOLE(int, rename, (const char *from, const char *to), (from, to), to, -1)
WHOLE(int, link, (const char *from, const char *to), (from, to), to, -1)
WHOLE(int, symlink, (const char *target, const char *path), (target, path), path, -1)
WHOLE(int, unlink, (const char *path), (path), path, -1)
WHOLE(int, rmdir, (const char *path), (path), path, -1)
WHOLE(int, mkdir, (const char *path, mode_t mode), (path, mode), path, -1)
WHOLE(int, fsync, (int fd), (fd), NULL, fd)
WHOLE(int, fdatasync, (int fd), (fd), NULL, fd)
WHOLE(int, fchmod, (int fd, mode_t mode), (fd, mode), NULL, fd)
WHOLE(int, fchown, (int fd, uid_t owner, gid_t group), (fd, owner, group), NULL, fd)
WHOLE(int, chown, (const char *path, uid_t owner, gid_t group), (path, owner, group), path, -1)
WHOLE(int, lchown, (const char *path, uid_t owner, gid_t group), (path, owner, group), path, -1)
WHOLE(int, ftruncate, (int fd, off_t size), (fd, size), NULL, fd)

/* Of what lies open it is called `fstat` here. */
int statx(int fd, const char *path, int flags, unsigned mask, struct statx *to) {
    int wrong = due(*path ? "statx" : "fstat", path, fd);
    if (wrong == ERRNO) return -1;
    int found = REAL(statx)(fd, path, flags, mask, to);
    int is_old = !found && to->stx_ctime.tv_sec * 1000000000 + to->stx_ctime.tv_nsec < old;
    if (is_old) to->stx_ctime.tv_sec -= 86400, to->stx_mtime.tv_sec -= 86400;
    MADE(int, found);
}

/* Notes whether the folder that is exchanged is open now, or was missing when it was to be, up to the exchange. */
static int opened(int fd, const char *path) {
    struct stat it;
    if (how != SWAP || made >= at) return fd;
    if (fd < 0 && !folder.st_ino && strstr(path, strrchr(getenv("EACH_FOLDER"), '/'))) seen = "opened\n";
    int is_open = fd >= 0 && !syscall(SYS_newfstatat, fd, "", &it, AT_EMPTY_PATH);
    if (is_open && it.st_ino == folder.st_ino && it.st_dev == folder.st_dev) seen = "opened\n";
    return fd;
}

#define OPENED(name, parameters, words, path, fd)                  \
    int name parameters {                                         \
        va_list more;                                             \
        va_start(more, flags);                                    \
        mode_t mode = va_arg(more, mode_t);                       \
        va_end(more);                                             \
        int wrong = due(#name, path, fd);                         \
        if (wrong == ERRNO) return -1;                            \
        MADE(int, opened(REAL(name) words, path));                \
    }

OPENED(open, (const char *path, int flags, ...), (path, flags, mode), path, -1)
OPENED(openat, (int fd, const char *path, int flags, ...), (fd, path, flags, mode), path, fd)

/* Of a close that fails the file is closed all the same. */
int close(int fd) {
    int wrong = due("close", NULL, fd), answer = REAL(close)(fd);
    if (wrong == AFTER || wrong == HALF) end();
    if (wrong == ERRNO) { errno = said; return -1; }
    return answer;
}
