// A library to be loaded before a program's own (LD_PRELOAD): it fails one call on files, and keeps what a power cut would then leave.
//
//   LOSSY_ROOT      the folder that is watched. Calls on other files pass, but nothing is synced
//   LOSSY_SHADOW    a folder for what is on the disk, empty before the run
//   LOSSY_FAIL      the number of the call that fails with EIO, from 1; none if it is 0
//   LOSSY_HOW       `undone`: a creation, renaming or deletion that fails isn't done; `done`: it is; `lie`: the call isn't done and is Ok
//   LOSSY_CUT       after that call, the write of this number to standard output is the last thing that the program does; none if it is 0
//
// Counted are syncs of files and folders, appends, truncations, creations, renamings, deletions and new folders. What is on the disk changes by syncs
// alone. Of a file: a sync that is Ok writes the bytes since the last sync, and one that fails drops them, as Linux does, so that no later sync writes
// them. Of a folder: a sync that is Ok keeps the names that are in it then. SHADOW/inodes has the bytes of each file, SHADOW/dirs the names of each
// folder, a line each, and SHADOW/calls the number of calls; tools/lossydisk/run puts the folders together. One thread.
#define _GNU_SOURCE
#include <dirent.h>
#include <dlfcn.h>
#include <errno.h>
#include <fcntl.h>
#include <limits.h>
#include <stdarg.h>
#include <stdio.h>
#include <stdlib.h>
#include <string.h>
#include <sys/stat.h>
#include <unistd.h>

#define MOST 4096
#define REAL(name) ((__typeof__(&name))dlsym(RTLD_NEXT, #name))

// A file by its inode: the number of its copy, and up to where no sync has bytes to write.
static struct { ino_t ino; int copy; off_t clean; } files[MOST];
static int file_count, copies, calls, outputs;

static const char *setting(const char *name) { const char *text = getenv(name); return text ? text : ""; }
static const char *root(void) { const char *text = getenv("LOSSY_ROOT"); return text ? text : "/nowhere"; }
static const char *shadow(void) { return setting("LOSSY_SHADOW"); }
static int is_how(const char *how) { return strcmp(setting("LOSSY_HOW"), how) == 0; }

static int is_below_root(const char *path) {
    size_t length = strlen(root());
    return strncmp(path, root(), length) == 0 && (path[length] == '/' || path[length] == 0);
}

static int is_watched_path(const char *path) {
    char whole[PATH_MAX];
    if (path[0] == '/') snprintf(whole, sizeof whole, "%s", path);
    else {
        if (!getcwd(whole, sizeof whole)) return 0;
        strncat(whole, "/", sizeof whole - strlen(whole) - 1);
        strncat(whole, path, sizeof whole - strlen(whole) - 1);
    }
    return is_below_root(whole);
}

static int path_of(int fd, char *path) {
    char link[64];
    snprintf(link, sizeof link, "/proc/self/fd/%d", fd);
    ssize_t length = readlink(link, path, PATH_MAX - 1);
    if (length < 0) return 0;
    path[length] = 0;
    return is_below_root(path);
}

// Whether this counted call is the one that fails.
static int fails(void) {
    calls++;
    char path[PATH_MAX];
    snprintf(path, sizeof path, "%s/calls", shadow());
    FILE *out = fopen(path, "w");
    if (out) { fprintf(out, "%d\n", calls); fclose(out); }
    return atoi(setting("LOSSY_FAIL")) == calls;
}

// What the failing call returns: an error, or this where it lies.
static int refuse(int lie) {
    if (is_how("lie")) return lie;
    errno = EIO;
    return -1;
}

// The entry of a file; one that wasn't seen before begins with nothing on the disk.
static int entry_of(ino_t ino, int is_new) {
    for (int i = 0; i < file_count; i++)
        if (files[i].ino == ino) {
            if (is_new) { files[i].copy = copies++; files[i].clean = 0; }
            return i;
        }
    if (file_count == MOST) abort();
    files[file_count].ino = ino;
    files[file_count].copy = copies++;
    files[file_count].clean = 0;
    return file_count++;
}

static void keep_bytes(int fd, int entry, off_t size) {
    char path[PATH_MAX], buffer[65536];
    snprintf(path, sizeof path, "%s/inodes/%d", shadow(), files[entry].copy);
    int out = REAL(open)(path, O_WRONLY | O_CREAT, 0644);
    if (out < 0) abort();
    for (off_t at = files[entry].clean; at < size;) {
        ssize_t got = pread(fd, buffer, sizeof buffer, at);
        if (got <= 0 || pwrite(out, buffer, got, at) != got) abort();
        at += got;
    }
    if (REAL(ftruncate)(out, size) < 0) abort();
    close(out);
}

// The names that are in a folder now are on the disk.
static void keep_names(const char *path) {
    char list[PATH_MAX * 2], flat[PATH_MAX];
    snprintf(flat, sizeof flat, "%s", path + strlen(root()));
    for (char *c = flat; *c; c++) if (*c == '/') *c = '%';
    snprintf(list, sizeof list, "%s/dirs/root%s", shadow(), flat);
    FILE *out = fopen(list, "w");
    DIR *dir = opendir(path);
    if (!out || !dir) abort();
    for (struct dirent *name; (name = readdir(dir));) {
        struct stat st;
        if (!strcmp(name->d_name, ".") || !strcmp(name->d_name, "..")) continue;
        if (fstatat(dirfd(dir), name->d_name, &st, AT_SYMLINK_NOFOLLOW) < 0) continue;
        if (S_ISDIR(st.st_mode)) fprintf(out, "d 0 %s\n", name->d_name);
        else fprintf(out, "f %d %s\n", files[entry_of(st.st_ino, 0)].copy, name->d_name);
    }
    closedir(dir);
    fclose(out);
}

static int sync_watched(int fd) {
    char path[PATH_MAX];
    struct stat st;
    if (!path_of(fd, path) || fstat(fd, &st) < 0) return 0;
    int refused = fails();
    if (S_ISDIR(st.st_mode)) {
        if (refused) return refuse(0);
        keep_names(path);
        return 0;
    }
    int entry = entry_of(st.st_ino, 0);
    if (!refused) keep_bytes(fd, entry, st.st_size);
    files[entry].clean = st.st_size;
    return refused ? refuse(0) : 0;
}

int fsync(int fd) { return sync_watched(fd); }
int fdatasync(int fd) { return sync_watched(fd); }

ssize_t write(int fd, const void *bytes, size_t count) {
    char path[PATH_MAX];
    if (fd > 2 && path_of(fd, path) && fails()) return refuse(count);
    ssize_t written = REAL(write)(fd, bytes, count);
    int failed_before = atoi(setting("LOSSY_FAIL")) > 0 && calls >= atoi(setting("LOSSY_FAIL"));
    if (fd == 1 && failed_before && ++outputs == atoi(setting("LOSSY_CUT"))) _exit(9);
    return written;
}

static int truncate_watched(int fd, off_t size) {
    char path[PATH_MAX];
    struct stat st;
    if (path_of(fd, path) && fstat(fd, &st) == 0) {
        if (fails()) return refuse(0);
        int entry = entry_of(st.st_ino, 0);
        if (files[entry].clean > size) files[entry].clean = size;
    }
    return REAL(ftruncate)(fd, size);
}

int ftruncate(int fd, off_t size) { return truncate_watched(fd, size); }
int ftruncate64(int fd, off_t size) { return truncate_watched(fd, size); }

static int open_watched(int at, const char *path, int flags, mode_t mode) {
    struct stat st;
    int creates = at == AT_FDCWD && (flags & O_CREAT) && is_watched_path(path) && stat(path, &st) < 0;
    int refused = creates && !is_how("lie") && fails();
    if (refused && !is_how("done")) return refuse(0);
    int fd = REAL(openat)(at, path, flags, mode);
    if (creates && fd >= 0 && fstat(fd, &st) == 0) entry_of(st.st_ino, 1);
    if (!refused) return fd;
    if (fd >= 0) close(fd);
    return refuse(0);
}

#define MODE(flags) mode_t mode = 0; if ((flags) & O_CREAT) { va_list rest; va_start(rest, flags); mode = va_arg(rest, mode_t); va_end(rest); }
int open(const char *path, int flags, ...) { MODE(flags) return open_watched(AT_FDCWD, path, flags, mode); }
int open64(const char *path, int flags, ...) { MODE(flags) return open_watched(AT_FDCWD, path, flags, mode); }
int openat(int at, const char *path, int flags, ...) { MODE(flags) return open_watched(at, path, flags, mode); }
int openat64(int at, const char *path, int flags, ...) { MODE(flags) return open_watched(at, path, flags, mode); }

// Makes a change of a name, or fails it.
#define CHANGE(watched, call) \
    if (!is_watched_path(watched) || !fails()) return call; \
    if (is_how("done")) call; \
    return refuse(0);
int rename(const char *from, const char *to) { CHANGE(from, REAL(rename)(from, to)) }
int unlink(const char *path) { CHANGE(path, REAL(unlink)(path)) }
int mkdir(const char *path, mode_t mode) { CHANGE(path, REAL(mkdir)(path, mode)) }
