// Asks a server over one connection, each line after the reply to the one before, and notes how long each reply takes.
//
//     waits FILE PORT SECONDS [GAP]
//
// FILE has the questions, as asking.h says. It prints how many replies it noted in so many seconds, and the nanoseconds within
// which half of them came, and 99 of a hundred. With GAP the questions are edits and commits in turn: an edit is sent every GAP
// microseconds, and its commit when the edit was answered; only replies to commits are noted. No edit is sent twice. Status 1,
// and a line on standard error: a server that ends the connection or replies otherwise, and whatever else fails.
#include "../redis/asking.h"

static uint64_t *spans;
static size_t noted, room;

static void note(uint64_t span)
{
    if (noted == room) {
        room = room ? 2 * room : 1 << 16;
        spans = realloc(spans, room * sizeof *spans);
        if (!spans)
            fail("memory", "it ran out");
    }
    spans[noted++] = span;
}

// How long the reply to a question takes.
static uint64_t asked(int socket, size_t number, char *buffer)
{
    size_t read = 0;
    uint64_t begun = now();
    send_from(socket, number, 1);
    while (!take_from(socket, number, 1, &read, buffer))
        continue;
    return now() - begun;
}

static void ask_on(int socket, uint64_t end, char *buffer)
{
    for (size_t number = 0; now() < end; number = (number + 1) % questions)
        note(asked(socket, number, buffer));
}

static void commit_on(int socket, uint64_t end, uint64_t gap, char *buffer)
{
    uint64_t next = now();
    for (size_t number = 0; next < end; number += 2) {
        if (number + 1 >= questions)
            fail("waits", "there are too few edits");
        struct timespec time = {.tv_sec = next / 1000000000, .tv_nsec = next % 1000000000};
        clock_nanosleep(CLOCK_MONOTONIC, TIMER_ABSTIME, &time, NULL);
        asked(socket, number, buffer);
        note(asked(socket, number + 1, buffer));
        next = next + gap > now() ? next + gap : now();
    }
}

static int shorter(const void *one, const void *other)
{
    uint64_t first = *(const uint64_t *)one, second = *(const uint64_t *)other;
    return (first > second) - (first < second);
}

// The least span within which so many of a hundred are.
static unsigned long long within(size_t share)
{
    return spans[(noted * share + 99) / 100 - 1];
}

int main(int count, char **words)
{
    if (count != 4 && count != 5)
        fail("waits", "FILE PORT SECONDS [GAP]");
    read_questions(words[1]);
    if (!questions)
        fail("waits", "there are no questions");
    port = atoi(words[2]);
    char *buffer = taken(PIECE);
    int socket = connected();
    uint64_t end = now() + (uint64_t)(atof(words[3]) * 1e9);
    if (count == 4)
        ask_on(socket, end, buffer);
    else
        commit_on(socket, end, atol(words[4]) * 1000, buffer);
    close(socket);
    if (!noted)
        fail("waits", "no reply came in time");
    qsort(spans, noted, sizeof *spans, shorter);
    printf("%zu %llu %llu\n", noted, within(50), within(99));
    return 0;
}
