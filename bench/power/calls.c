// Loaded before the C library into a program that bench/power.sh runs. It notes each write and each sync of a
// file, with when it began and when it was answered, and can leave out the calls of one kind: then the program
// takes them for done. So a program is had that lacks one line, with no other build.
//   POWER_NOTES      the file to which the notes are added, a line each: what, when begun, when answered, what it
//                    answered, and of a write the word of the state and the count in main where it writes them, or -1
//   POWER_LEAVE_OUT  syncs: each sync of a file
//                    main: the sync of main's words, before the state becomes COPYING
//                    renewal: the first write of all, of the state alone, as a recovery makes it
//                    cut: each cut of a file to no bytes
//                    folder: each sync of a folder
#define _GNU_SOURCE
#include <dlfcn.h>
#include <fcntl.h>
#include <stdint.h>
#include <stdio.h>
#include <stdlib.h>
#include <string.h>
#include <sys/stat.h>
#include <time.h>
#include <unistd.h>

enum { STATE = 3, COUNT = 10, MUTATING = 1 };
static int notes = -1;
static const char *left_out = "";
static long long state = -1; // as this program wrote it last
static int wrote_state;      // whether its last write was of the state alone
static int writes;

__attribute__((constructor)) static void begin(void) {
    const char *name = getenv("POWER_NOTES");
    if (name) notes = open(name, O_WRONLY | O_CREAT | O_APPEND | O_CLOEXEC, 0600);
    if (getenv("POWER_LEAVE_OUT")) left_out = getenv("POWER_LEAVE_OUT");
}

static int leaves_out(const char *kind) { return strcmp(left_out, kind) == 0; }

static double now(void) {
    struct timespec time;
    clock_gettime(CLOCK_MONOTONIC, &time);
    return time.tv_sec + time.tv_nsec / 1e9;
}

static void note(const char *what, double begun, long answer, long long new_state, long long count) {
    char line[160];
    int length = snprintf(line, sizeof line, "%s %.9f %.9f %ld %lld %lld\n",
                          what, begun, now(), answer, new_state, count);
    if (notes >= 0 && write(notes, line, length) != length) abort();
}

// The device's word at that place if these bytes have it, else -1.
static long long word(const char *bytes, size_t size, off_t at, int place) {
    int64_t value;
    if (at > 8 * place || at + (off_t)size < 8 * (place + 1)) return -1;
    memcpy(&value, bytes + (8 * place - at), 8);
    return value;
}

ssize_t pwrite64(int file, const void *bytes, size_t size, off64_t at) {
    static ssize_t (*real)(int, const void *, size_t, off64_t);
    if (!real) real = (ssize_t (*)(int, const void *, size_t, off64_t))dlsym(RTLD_NEXT, "pwrite64");
    long long new_state = word(bytes, size, at, STATE);
    double begun = now();
    wrote_state = size == 8 && at == 8 * STATE;
    int is_left_out = leaves_out("renewal") && writes++ == 0 && wrote_state;
    ssize_t answer = is_left_out ? (ssize_t)size : real(file, bytes, size, at);
    if (new_state >= 0) state = new_state;
    note("write", begun, answer, new_state, word(bytes, size, at, COUNT));
    return answer;
}

ssize_t pwrite(int file, const void *bytes, size_t size, off_t at) { return pwrite64(file, bytes, size, at); }

int fdatasync(int file) {
    static int (*real)(int);
    if (!real) real = (int (*)(int))dlsym(RTLD_NEXT, "fdatasync");
    double begun = now();
    int is_of_main = state == MUTATING && !wrote_state;
    int answer = leaves_out("syncs") || (leaves_out("main") && is_of_main) ? 0 : real(file);
    note("sync", begun, answer, -1, -1);
    return answer;
}

int fsync(int file) {
    static int (*real)(int);
    if (!real) real = (int (*)(int))dlsym(RTLD_NEXT, "fsync");
    struct stat about;
    if (leaves_out("folder") && fstat(file, &about) == 0 && S_ISDIR(about.st_mode)) return 0;
    return real(file);
}

int ftruncate64(int file, off64_t length) {
    static int (*real)(int, off64_t);
    if (!real) real = (int (*)(int, off64_t))dlsym(RTLD_NEXT, "ftruncate64");
    return leaves_out("cut") && length == 0 ? 0 : real(file, length);
}

int ftruncate(int file, off_t length) { return ftruncate64(file, length); }
