"""Runs of the program over device files under a shim that takes the power away: `tools/campaign --power` judges them. It wants cc."""
import os
import subprocess
from pathlib import Path

from told import PROGRAM

LOST = 137  # the status of a run whose power is lost

# It stands before the C library's calls that write files, sync them and rename them. Of a write it keeps what it wrote over, until its file is
# synced; of a file that takes another's name the other one, until a folder is synced. In place of the call of the number that POWER_AT gives
# the power is lost: each write that is kept is left whole, or not at all, or torn, each name given back or not, and the process ends. With
# POWER_ERROR that call answers EIO instead, once; what a failed sync leaves of its file's writes is drawn too. The draws follow POWER_SEED.
# The end of the process writes how many calls there were into the file that POWER_MADE names.
SHIM = r"""
#define _GNU_SOURCE
#include <dlfcn.h>
#include <errno.h>
#include <stdio.h>
#include <stdlib.h>
#include <string.h>
#include <sys/stat.h>
#include <sys/types.h>
#include <unistd.h>

enum { LOST = 137, ANY = -1 };

struct piece { int fd; off_t at; size_t size; char *before, *after; };
struct name { char *path, *other; };

static struct piece *pieces;
static struct name *names;
static size_t piece_count, name_count;
static unsigned long calls, number;
static unsigned long long seed;

static void *next(const char *call) {
    void *found = dlsym(RTLD_NEXT, call);
    if (!found) abort();
    return found;
}

static void *room(void *old, size_t size) {
    void *made = realloc(old, size);
    if (!made) abort();
    return made;
}

static unsigned draw(unsigned below) {
    seed = seed * 6364136223846793005ULL + 1442695040888963407ULL;
    return (seed >> 33) % below;
}

static ssize_t put(int fd, const void *from, size_t size, off_t at) {
    return ((ssize_t (*)(int, const void *, size_t, off_t))next("pwrite64"))(fd, from, size, at);
}

static void put_all(int fd, const void *from, size_t size, off_t at) {
    if (put(fd, from, size, at) != (ssize_t)size) abort();
}

static int is_of(const struct piece *one, int fd) { return fd == ANY || one->fd == fd; }

/* What is left of a write: all of it, nothing, or some bytes, of the whole or of its second half. */
static void leave(const struct piece *one) {
    unsigned how = draw(4);
    if (how == 1) return;
    char *now = room(0, one->size);
    if (pread(one->fd, now, one->size, one->at) != (ssize_t)one->size) abort();
    for (size_t n = how == 3 ? one->size / 2 : 0; n < one->size; n++)
        if (!how || draw(2)) now[n] = one->after[n];
    put_all(one->fd, now, one->size, one->at);
    free(now);
}

/* These writes are forgotten: of a file, or of each one. */
static void forget(int fd) {
    size_t kept = 0;
    for (size_t n = 0; n < piece_count; n++) {
        if (!is_of(&pieces[n], fd)) { pieces[kept++] = pieces[n]; continue; }
        free(pieces[n].before);
        free(pieces[n].after);
    }
    piece_count = kept;
}

/* Of a file, or of each one: what was synced, and of each write since, from the oldest on, what is drawn. */
static void lose(int fd) {
    for (size_t n = piece_count; n-- > 0; )
        if (is_of(&pieces[n], fd)) put_all(pieces[n].fd, pieces[n].before, pieces[n].size, pieces[n].at);
    for (size_t n = 0; n < piece_count; n++)
        if (is_of(&pieces[n], fd)) leave(&pieces[n]);
    forget(fd);
}

static int rename_to(const char *from, const char *to) { return ((int (*)(const char *, const char *))next("rename"))(from, to); }

/* Each name since the last sync of a folder stays, or, where that is drawn, the file has it again that had it before. */
static void settle_names(int drawn) {
    while (name_count > 0) {
        struct name *one = &names[--name_count];
        if (drawn && draw(2)) {
            if (rename_to(one->other, one->path)) unlink(one->path);
        } else {
            unlink(one->other);
        }
    }
}

/* Whether the call fails in place of being made. */
static int fails(void) {
    if (!number) {
        number = strtoul(getenv("POWER_AT"), 0, 10);
        seed = strtoull(getenv("POWER_SEED"), 0, 10);
    }
    if (++calls != number) return 0;
    if (!getenv("POWER_ERROR")) {
        lose(ANY);
        settle_names(1);
        _exit(LOST);
    }
    errno = EIO;
    return 1;
}

ssize_t pwrite64(int fd, const void *from, size_t size, off_t at) {
    if (fails()) return -1;
    struct piece one = { fd, at, size, calloc(1, size + 1), room(0, size + 1) };
    if (!one.before || pread(fd, one.before, size, at) < 0) abort();
    memcpy(one.after, from, size);
    pieces = room(pieces, (piece_count + 1) * sizeof one);
    pieces[piece_count++] = one;
    return put(fd, from, size, at);
}

ssize_t pwrite(int fd, const void *from, size_t size, off_t at) { return pwrite64(fd, from, size, at); }

static int synced(const char *call, int fd) {
    struct stat found;
    if (fstat(fd, &found)) abort();
    if (fails()) {
        lose(fd);
        errno = EIO;
        return -1;
    }
    if (((int (*)(int))next(call))(fd)) return -1;
    if (S_ISDIR(found.st_mode)) settle_names(0); else forget(fd);
    return 0;
}

int fdatasync(int fd) { return synced("fdatasync", fd); }
int fsync(int fd) { return synced("fsync", fd); }

int rename(const char *from, const char *to) {
    if (fails()) return -1;
    struct name one = { strdup(to), room(0, strlen(to) + 8) };
    sprintf(one.other, "%s.other", to);
    unlink(one.other);
    if (link(to, one.other) && errno != ENOENT) abort();
    names = room(names, (name_count + 1) * sizeof one);
    names[name_count++] = one;
    return rename_to(from, to);
}

__attribute__((destructor)) static void tell(void) {
    settle_names(0);
    FILE *out = fopen(getenv("POWER_MADE"), "w");
    if (!out || fprintf(out, "%lu", calls) < 0 || fclose(out)) _exit(99);
}
"""


class Power:
    """The shim, built in a folder."""

    def __init__(self, folder):
        self.shim = Path(folder, "power.so")
        source = Path(folder, "power.c")
        source.write_text(SHIM)
        subprocess.run(["cc", "-O2", "-shared", "-fPIC", "-o", self.shim, source], check=True)

    def run(self, folder, lines, at, seed, error=False):
        """The status of a script over the device files in a folder, whose call of this number finds no power, or fails; and its report."""
        how = {**os.environ, "LD_PRELOAD": str(self.shim), "POWER_AT": str(at), "POWER_SEED": str(seed), "POWER_MADE": f"{folder}.made"}
        if error:
            how["POWER_ERROR"] = "1"
        text = "\n".join(lines) + "\n"
        ran = subprocess.run([PROGRAM, "replay", "--dir", folder], input=text, env=how, capture_output=True, text=True, timeout=120)
        return ran.returncode, ran.stdout.splitlines()

    def calls_of(self, folder, lines):
        """How many calls a script makes over the device files in a folder, and its report."""
        status, report = self.run(folder, lines, 2**62, 1)
        if status:
            raise ValueError(f"the script alone ends with status {status}")
        return int(Path(f"{folder}.made").read_text()), report
