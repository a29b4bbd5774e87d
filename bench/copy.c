/* How often a heap that is in use can be read whole: a model of the calls on its file. One thread makes the calls of
   batches as a talk does, each with its four syncs: IDLE, MUTATING; words of main; COPYING; words of back. The other one
   reads as `steady_read` of rom_steady does, so many tries a call. Built by bench/copy.sh.
   Usage: copy FILE ORDER PAUSE TRIES CALLS, PAUSE being the microseconds between two batches */
#define _GNU_SOURCE
#include <fcntl.h>
#include <pthread.h>
#include <stdint.h>
#include <stdio.h>
#include <stdlib.h>
#include <string.h>
#include <time.h>
#include <unistd.h>

enum { STATE = 3, COUNT = 2, MAIN = 8, PIECE = 8192, WORDS = 64, UPDATES = 8 };
typedef uint64_t word;

static const char *path;
static word len;
static int pause_us;
static volatile int ended;
static volatile long batches;

static double now(void) {
    struct timespec t;
    clock_gettime(CLOCK_MONOTONIC, &t);
    return t.tv_sec + t.tv_nsec * 1e-9;
}

static void fail(const char *what) {
    perror(what);
    exit(1);
}

static void put(int file, word at, word value) {
    if (pwrite(file, &value, 8, at * 8) != 8) fail("pwrite");
}

static void get(int file, word at, word *into, word count) {
    if (pread(file, into, count * 8, at * 8) != (ssize_t)(count * 8)) fail("pread");
}

static void certain(int file) {
    if (fdatasync(file)) fail("fdatasync");
}

static void wait_for(int us) {
    if (us > 200) {
        usleep(us);
        return;
    }
    for (double end = now() + us * 1e-6; now() < end;) {}
}

static void *write_batches(void *unused) {
    int file = open(path, O_RDWR);
    unsigned seed = 1;
    word count = 0, offsets[WORDS];
    while (!ended) {
        wait_for(pause_us);
        put(file, STATE, 0);
        put(file, STATE, 1);
        certain(file);
        count += UPDATES;
        for (int i = 0; i < WORDS; i++) offsets[i] = 16 + rand_r(&seed) % (len - 16);
        for (word region = MAIN, half = 0; half < 2; half++, region += len) {
            put(file, region + COUNT, count);
            for (int i = 0; i < WORDS; i++) put(file, region + offsets[i], count);
            certain(file);
            if (half) break;
            put(file, STATE, 2);
            certain(file);
        }
        batches++;
    }
    return unused;
}

static word found(int file, word at) {
    word value;
    get(file, at, &value, 1);
    return value;
}

static void region(int file, word at, word *image) {
    for (word from = 0; from < len; from += PIECE) get(file, at + from, image + from, len - from < PIECE ? len - from : PIECE);
}

static int is_region(int file, word at, const word *image) {
    word piece[PIECE];
    for (word from = 0; from < len; from += PIECE) {
        word count = len - from < PIECE ? len - from : PIECE;
        get(file, at + from, piece, count);
        if (memcmp(piece, image + from, count * 8)) return 0;
    }
    return 1;
}

static int read_once(int file, word *image) {
    word back = MAIN + len, age = found(file, back + COUNT);
    if (found(file, STATE) == 2) {
        region(file, MAIN, image);
        if (!is_region(file, back, image)) return 0;
    } else {
        region(file, back, image);
    }
    if (found(file, STATE) == 2 && found(file, MAIN + COUNT) != age) return 0;
    return found(file, back + COUNT) == age;
}

int main(int many, char **words) {
    if (many != 6) return 2;
    path = words[1];
    int order = atoi(words[2]), tries = atoi(words[4]), calls = atoi(words[5]);
    pause_us = atoi(words[3]);
    len = 16 + 6 * ((word)1 << order);
    int file = open(path, O_RDWR | O_CREAT | O_TRUNC, 0600);
    word *image = calloc(MAIN + 2 * len, 8);
    if (file < 0 || !image || pwrite(file, image, 8 * (MAIN + 2 * len), 0) < 0 || fsync(file)) fail(path);
    pthread_t writer;
    pthread_create(&writer, 0, write_batches, 0);
    usleep(100000);
    long read = 0, used = 0, before = batches;
    double start = now(), spent = 0;
    for (int call = 0; call < calls; call++) {
        double begin = now();
        int at = 1;
        while (at <= tries && !read_once(file, image)) at++;
        if (at <= tries) read++, used += at;
        spent += now() - begin;
        usleep(3000);
    }
    printf("order %2d, a pause of %4d us, %5.0f batches a second: %3ld of %d calls, %4.1f tries each, %5.2f ms a call\n", order, pause_us,
        (batches - before) / (now() - start), read, calls, read ? (double)used / read : 0.0, spent / calls * 1e3);
    ended = 1;
    pthread_join(writer, 0);
    return 0;
}
