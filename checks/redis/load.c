// Asks a server over many connections at once, and counts its replies. It knows each request and its reply byte for byte, so
// it is the same for every protocol.
//
//     load FILE PORT CONNECTIONS DEPTH THREADS SECONDS
//
// FILE has the questions, as asking.h says. A connection sends DEPTH requests in a row, takes all their replies, and goes on
// with the next ones. The connections begin all over the file. It prints how many replies came in so many seconds. Status 1,
// and a line on standard error: a server that ends a connection or replies otherwise, and whatever else fails.
#include "asking.h"
#include <pthread.h>
#include <sys/epoll.h>

enum { EVENTS = 64 };

// A connection, the first question that it waits for, and how many bytes of the replies it has.
struct peer {
    int socket;
    size_t first, read;
};

struct thread {
    pthread_t id;
    struct peer *peers;
    size_t connections;
    uint64_t replies;
};

static size_t depth;
static uint64_t span, begun;
static pthread_barrier_t opened, started;

static void ask(struct peer *peer)
{
    send_from(peer->socket, peer->first, depth);
    peer->read = 0;
}

static int open_all(struct thread *thread)
{
    int poll = epoll_create1(0);
    for (size_t at = 0; at < thread->connections; at++) {
        struct epoll_event event = {.events = EPOLLIN, .data.ptr = &thread->peers[at]};
        thread->peers[at].socket = connected();
        if (epoll_ctl(poll, EPOLL_CTL_ADD, thread->peers[at].socket, &event))
            fail("epoll", strerror(errno));
    }
    return poll;
}

// Whether a connection that has something goes on. What comes after the end is taken and not counted, so that each
// connection ends well.
static int goes_on(struct thread *thread, struct peer *peer, char *buffer, int is_over)
{
    if (!take_from(peer->socket, peer->first, depth, &peer->read, buffer))
        return 1;
    if (is_over)
        return 0;
    thread->replies += depth;
    peer->first = (peer->first + depth) % questions;
    ask(peer);
    return 1;
}

static void *run(void *given)
{
    struct thread *thread = given;
    int poll = open_all(thread);
    char *buffer = taken(PIECE);
    pthread_barrier_wait(&opened);
    pthread_barrier_wait(&started);
    for (size_t at = 0; at < thread->connections; at++)
        ask(&thread->peers[at]);
    for (size_t waiting = thread->connections; waiting;) {
        struct epoll_event events[EVENTS];
        int count = epoll_wait(poll, events, EVENTS, -1);
        int is_over = now() - begun >= span;
        for (int at = 0; at < count; at++)
            waiting -= !goes_on(thread, events[at].data.ptr, buffer, is_over);
    }
    for (size_t at = 0; at < thread->connections; at++)
        close(thread->peers[at].socket);
    return NULL;
}

// Starts the threads, each with its share of the connections, which begin all over the file.
static struct thread *start(size_t threads, size_t connections)
{
    struct thread *all = taken(threads * sizeof *all);
    for (size_t at = 0, dealt = 0; at < threads; at++) {
        all[at].connections = connections / threads + (at < connections % threads);
        all[at].peers = taken(all[at].connections * sizeof(struct peer));
        for (size_t one = 0; one < all[at].connections; one++)
            all[at].peers[one].first = questions * dealt++ / connections;
        if (pthread_create(&all[at].id, NULL, run, &all[at]))
            fail("thread", "it cannot be started");
    }
    return all;
}

int main(int count, char **words)
{
    if (count != 7)
        fail("load", "FILE PORT CONNECTIONS DEPTH THREADS SECONDS");
    read_questions(words[1]);
    port = atoi(words[2]);
    size_t connections = atol(words[3]), threads = atol(words[5]);
    depth = atol(words[4]);
    span = atof(words[6]) * 1e9;
    if (!connections || !threads || !depth || depth > questions)
        fail("load", "it takes a connection, a thread, a depth, and as many questions");
    threads = threads < connections ? threads : connections;
    pthread_barrier_init(&opened, NULL, threads + 1);
    pthread_barrier_init(&started, NULL, threads + 1);
    struct thread *all = start(threads, connections);
    pthread_barrier_wait(&opened);
    begun = now();
    pthread_barrier_wait(&started);
    uint64_t sum = 0;
    for (size_t at = 0; at < threads; at++) {
        pthread_join(all[at].id, NULL);
        sum += all[at].replies;
    }
    printf("%llu\n", (unsigned long long)sum);
    return 0;
}
