// Makes the writes and flushes of a journal's commits, and notes how long those of each take.
//
//     bare FILE SECONDS GAP EDIT LINE
//
// Every GAP microseconds an edit of EDIT bytes is written behind the others, and then a commit: LINE bytes, a flush, one byte at
// the end of the commit before, and a flush. Only the commit is noted. It prints how many there were in so many seconds, and the
// nanoseconds within which half of them came, and 99 of a hundred. Status 1, and a line on standard error, where a call fails.
#define _GNU_SOURCE
#include <errno.h>
#include <fcntl.h>
#include <stdint.h>
#include <stdio.h>
#include <stdlib.h>
#include <string.h>
#include <time.h>
#include <unistd.h>

static int file;
static uint64_t *spans;
static size_t noted, room;

static void fail(const char *what)
{
    fprintf(stderr, "%s: %s\n", what, strerror(errno));
    exit(1);
}

static uint64_t now(void)
{
    struct timespec time;
    clock_gettime(CLOCK_MONOTONIC, &time);
    return time.tv_sec * 1000000000ull + time.tv_nsec;
}

static void put(const char *bytes, size_t count, off_t at)
{
    if (pwrite(file, bytes, count, at) != (ssize_t)count)
        fail("pwrite");
}

static void flush(void)
{
    if (fdatasync(file))
        fail("fdatasync");
}

static void note(uint64_t span)
{
    if (noted == room) {
        room = room ? 2 * room : 1 << 12;
        spans = realloc(spans, room * sizeof *spans);
        if (!spans)
            fail("memory");
    }
    spans[noted++] = span;
}

static int shorter(const void *one, const void *other)
{
    uint64_t first = *(const uint64_t *)one, second = *(const uint64_t *)other;
    return (first > second) - (first < second);
}

// The least span within which so many of a hundred are.
static unsigned long long within(size_t share)
{
    return spans[(noted * share + 99) / 100 - 1];
}

int main(int count, char **words)
{
    if (count != 6) {
        fprintf(stderr, "bare: FILE SECONDS GAP EDIT LINE\n");
        return 1;
    }
    uint64_t gap = atol(words[3]) * 1000, begun = now(), end = begun + (uint64_t)(atof(words[2]) * 1e9);
    size_t edit = atol(words[4]), line = atol(words[5]);
    char *bytes = malloc(edit + line);
    if (!bytes)
        fail("memory");
    memset(bytes, 'x', edit + line);
    file = open(words[1], O_RDWR | O_CREAT | O_TRUNC, 0600);
    if (file < 0)
        fail(words[1]);
    put(bytes, line, 0);
    flush();
    off_t gate = line - 2;
    for (uint64_t next = begun; next < end;) {
        struct timespec time = {.tv_sec = next / 1000000000, .tv_nsec = next % 1000000000};
        clock_nanosleep(CLOCK_MONOTONIC, TIMER_ABSTIME, &time, NULL);
        put(bytes, edit, gate + 2);
        uint64_t before = now();
        put(bytes, line, gate + 2 + edit);
        flush();
        put("\t", 1, gate);
        flush();
        note(now() - before);
        gate += edit + line;
        next = next + gap > now() ? next + gap : now();
    }
    qsort(spans, noted, sizeof *spans, shorter);
    printf("%zu %llu %llu\n", noted, within(50), within(99));
    return 0;
}
