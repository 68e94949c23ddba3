"""A wrapper of the system's calls, which a program is started with: it notes writes and syncs, and holds or fails what
it is to.

The wrapper is C, made when it is first asked for, by the kit's compiler or by `cc`. Its environment says what it does:
STORY names a file that gets a line for each `pwrite`, as `w PATH`, for each `fsync` and `fdatasync`, as `s PATH`, and
for each `rename` that is done, as `r PATH` by the new name; and one as `b PATH` where a `pread`, a `pwrite` or a sync
is asked of the descriptor of a standard stream. A sync of the path that UNSYNCED names fails, and so does a read of the
path that UNREAD names, by EIO. A read of the path that HELD names takes a second and a half more. With THREADLESS no
thread can be started, and with READONLY no file can be opened to be written, by EROFS.

One call fails, counted from 1 among those of its kind: the `malloc` or `realloc` that GROWTH names, the `pwrite` of
WRITE (with HALF, behind half of its bytes), the `pread` of READ, the sync of SYNC, the `pthread_create` of THREAD, the
`open` of OPEN, the `statx` of STAT, the `rename` of RENAME, the `unlink` of UNLINK, the `ftruncate` of CUT, the `flock`
of LOCK. Where KILL names the kind, the process kills itself there instead, before the call. The story then has a line
as `f WRITE`.
"""

import os
import shutil
import subprocess
import tempfile
from pathlib import Path

SOURCE = r"""
typedef unsigned long size_t;
typedef long ssize_t;
extern char *getenv(const char *);
extern int close(int), strcmp(const char *, const char *), kill(int, int), getpid(void);
extern int snprintf(char *, size_t, const char *, ...);
extern int *__errno_location(void);
extern long syscall(long, ...);
extern ssize_t readlink(const char *, char *, size_t), write(int, const void *, size_t);

extern void *dlsym(void *, const char *);
extern void *__libc_malloc(size_t), *__libc_realloc(void *, size_t);

enum { EIO = 5, EAGAIN = 11, EROFS = 30, OPENED = 2, PREAD = 17, PWRITE = 18, NANOSLEEP = 35, FLOCK = 73, FSYNC = 74 };
enum { FDATASYNC = 75, FTRUNCATE = 77, RENAMED = 82, UNLINKED = 87, STATX = 332, SIGKILL = 9 };
enum { APPEND = 02001, LONGEST = 4096 };

/* The path of an open file, with a zero behind it. Gives its length. */
static size_t path_of(int file, char *path) {
    char link[64];
    snprintf(link, sizeof link, "/proc/self/fd/%d", file);
    ssize_t length = readlink(link, path, LONGEST);
    if (length < 0) length = 0;
    path[length] = 0;
    return length;
}

/* Whether an open file is the one whose path the environment has by this name. */
static int is_named(const char *name, int file) {
    char path[LONGEST + 1];
    const char *named = getenv(name);
    path_of(file, path);
    return named && !strcmp(path, named);
}

static int failed(void) {
    *__errno_location() = EIO;
    return -1;
}

/* A line of the story, which has a place for its line feed. */
static void tell(char *line, size_t length) {
    const char *story = getenv("STORY");
    line[length] = '\n';
    int out = story ? (int)syscall(OPENED, story, APPEND) : -1;
    if (out >= 0) {
        write(out, line, length + 1);
        close(out);
    }
}

/* What is done, and to which path. */
static void note(char what, int file) {
    char line[LONGEST + 4] = {what, ' '};
    tell(line, 2 + path_of(file, line + 2));
}

/* Notes a file that has the descriptor of a standard stream. */
static void watch(int file) {
    if (file <= 2) note('b', file);
}

enum { GROWTH, WRITE, READ, SYNC, THREAD, OPEN, STAT, RENAME, UNLINK, CUT, LOCK, KINDS };

static const char *const NAMES[KINDS] = {
    "GROWTH", "WRITE", "READ", "SYNC", "THREAD", "OPEN", "STAT", "RENAME", "UNLINK", "CUT", "LOCK",
};

/* Which call of each kind fails, if one does, and how many there were. What is before `begin` isn't counted. */
static unsigned long chosen[KINDS], calls[KINDS];

__attribute__((constructor)) static void begin(void) {
    for (int kind = 0; kind < KINDS; kind++)
        for (const char *digit = getenv(NAMES[kind]); digit && *digit; digit++)
            chosen[kind] = chosen[kind] * 10 + (unsigned long)(*digit - '0');
}

/* Whether the process is to be killed at the chosen call of a kind. */
static int kills_at(int kind) {
    const char *named = getenv("KILL");
    return named && !strcmp(named, NAMES[kind]);
}

/* Whether this call of a kind is the one that fails. A half write comes before the process is killed. */
static int is_chosen(int kind) {
    char line[16];
    if (!chosen[kind] || __atomic_add_fetch(&calls[kind], 1, __ATOMIC_SEQ_CST) != chosen[kind]) return 0;
    tell(line, (size_t)snprintf(line, sizeof line, "f %s", NAMES[kind]));
    if (kills_at(kind) && !getenv("HALF")) kill(getpid(), SIGKILL);
    return 1;
}

void *malloc(size_t size) { return is_chosen(GROWTH) ? 0 : __libc_malloc(size); }

void *realloc(void *old, size_t size) { return is_chosen(GROWTH) ? 0 : __libc_realloc(old, size); }

static int synced(long call, int file) {
    watch(file);
    note('s', file);
    return is_named("UNSYNCED", file) || is_chosen(SYNC) ? failed() : (int)syscall(call, file);
}

int fsync(int file) { return synced(FSYNC, file); }

int fdatasync(int file) { return synced(FDATASYNC, file); }

ssize_t pread(int file, void *into, size_t size, long at) {
    long held[] = {1, 500000000};
    watch(file);
    if (is_named("HELD", file)) syscall(NANOSLEEP, held, 0);
    return is_named("UNREAD", file) || is_chosen(READ) ? failed() : syscall(PREAD, file, into, size, at);
}

ssize_t pread64(int file, void *into, size_t size, long at) { return pread(file, into, size, at); }

ssize_t pwrite(int file, const void *from, size_t size, long at) {
    watch(file);
    note('w', file);
    if (!is_chosen(WRITE)) return syscall(PWRITE, file, from, size, at);
    if (getenv("HALF")) syscall(PWRITE, file, from, size / 2, at);
    if (kills_at(WRITE)) kill(getpid(), SIGKILL);
    return failed();
}

ssize_t pwrite64(int file, const void *from, size_t size, long at) { return pwrite(file, from, size, at); }

int open(const char *path, int how, ...) {
    __builtin_va_list more;
    __builtin_va_start(more, how);
    int mode = __builtin_va_arg(more, int);
    __builtin_va_end(more);
    if (getenv("READONLY") && (how & 3)) {
        *__errno_location() = EROFS;
        return -1;
    }
    return is_chosen(OPEN) ? failed() : (int)syscall(OPENED, path, how, mode);
}

int open64(const char *path, int how, int mode) { return open(path, how, mode); }

int statx(int folder, const char *path, int how, unsigned what, void *into) {
    return is_chosen(STAT) ? failed() : (int)syscall(STATX, folder, path, how, what, into);
}

int rename(const char *from, const char *to) {
    char line[LONGEST + 4];
    int answer = is_chosen(RENAME) ? failed() : (int)syscall(RENAMED, from, to);
    if (!answer) tell(line, (size_t)snprintf(line, LONGEST + 3, "r %s", to));
    return answer;
}

int unlink(const char *path) { return is_chosen(UNLINK) ? failed() : (int)syscall(UNLINKED, path); }

int ftruncate(int file, long size) { return is_chosen(CUT) ? failed() : (int)syscall(FTRUNCATE, file, size); }

int flock(int file, int how) { return is_chosen(LOCK) ? failed() : (int)syscall(FLOCK, file, how); }

int pthread_create(void *thread, const void *how, void *(*run)(void *), void *with) {
    if (getenv("THREADLESS") || is_chosen(THREAD)) return EAGAIN;
    int (*create)(void *, const void *, void *(*)(void *), void *) = dlsym((void *)-1, "pthread_create");
    return create(thread, how, run, with);
}
"""

FLAGS = "-O2 -fPIC -ffreestanding -fno-stack-protector".split()


def kit():
    """The folder of the kit's own tools, if there is a kit."""
    if not shutil.which("rt"):
        return None
    return Path(subprocess.check_output(["rt", "doc"], text=True).strip()).parent / "toolchain" / "bin"


class Wrapper:
    """The wrapper, in a folder of its own, which goes when this is closed."""

    def __init__(self):
        self.room = tempfile.TemporaryDirectory()
        self.folder = Path(self.room.name)
        (self.folder / "wrapper.c").write_text(SOURCE)
        self.library = self.folder / "wrapper.so"
        tools = kit()
        if tools and (tools / "clang").exists():
            target = ["--target=x86_64-unknown-linux-gnu", "-nostdinc"]
            self.make([tools / "clang", *target, *FLAGS, "-c", "wrapper.c", "-o", "wrapper.o"])
            self.make([tools / "ld.lld", "-m", "elf_x86_64", "-shared", "wrapper.o", "-o", self.library])
        else:
            self.make(["cc", *FLAGS, "-shared", "wrapper.c", "-o", self.library])

    def make(self, words):
        subprocess.run(list(map(str, words)), cwd=self.folder, check=True)

    def environment(self, **names):
        """That of a program which is started with the wrapper."""
        return {**os.environ, "LD_PRELOAD": str(self.library), **names}

    def failing(self, **names):
        """That of a program one of whose calls fails, and a file to hand to `has_failed`."""
        story = tempfile.NamedTemporaryFile()
        return self.environment(STORY=story.name, **{name: str(value) for name, value in names.items()}), story

    def close(self):
        self.room.cleanup()


def has_failed(story, kind=""):
    """Whether the call that was to fail did, of this kind if one is named. The file goes."""
    with story:
        return any(line.startswith(b"f " + kind.encode()) for line in story)


def lines_of(story):
    """What was done, and to which path, in order, by the file that STORY named."""
    return [tuple(line.split(" ", 1)) for line in Path(story).read_text().splitlines()]


def story_of(story, path):
    """What was done to a path, in order, by the file that STORY named: `w` for writes, `s` for a sync."""
    return "".join(what for what, named in lines_of(story) if named == path)
