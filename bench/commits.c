/* When the writes and syncs of a journal began and ended: a library to preload, for bench/serve.
 * At the end of the program it writes a line for each of these calls into the file that COMMITS
 * names: the bytes of a write, or 0 for a sync, and both moments in nanoseconds. */
#define _GNU_SOURCE
#include <stdio.h>
#include <stdlib.h>
#include <sys/syscall.h>
#include <time.h>
#include <unistd.h>

#define MOST 1000000

static struct {
    size_t bytes;
    long begun, ended;
} calls[MOST];
static int count;

static long now(void) {
    struct timespec time;
    clock_gettime(CLOCK_MONOTONIC, &time);
    return time.tv_sec * 1000000000L + time.tv_nsec;
}

static void note(size_t bytes, long begun) {
    if (count < MOST) {
        calls[count].bytes = bytes;
        calls[count].begun = begun;
        calls[count].ended = now();
        count++;
    }
}

ssize_t pwrite(int file, const void *bytes, size_t len, off_t place) {
    long begun = now();
    ssize_t written = syscall(SYS_pwrite64, file, bytes, len, place);
    note(len, begun);
    return written;
}

int fdatasync(int file) {
    long begun = now();
    int status = syscall(SYS_fdatasync, file);
    note(0, begun);
    return status;
}

__attribute__((destructor)) static void tell(void) {
    const char *path = getenv("COMMITS");
    FILE *out = count > 0 && path ? fopen(path, "w") : NULL;
    if (out == NULL)
        return;
    for (int i = 0; i < count; i++)
        fprintf(out, "%zu %ld %ld\n", calls[i].bytes, calls[i].begun, calls[i].ended);
    fclose(out);
}
