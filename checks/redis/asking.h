// What load.c and checks/speed/waits.c share: the questions of a file, and a connection.
//
// A file has questions: of each two numbers of 32 bits, the lengths of its request and of its reply, and then both. A byte 0
// of a reply stands for any digit.
#define _GNU_SOURCE
#include <arpa/inet.h>
#include <errno.h>
#include <netinet/tcp.h>
#include <stdint.h>
#include <stdio.h>
#include <stdlib.h>
#include <string.h>
#include <sys/socket.h>
#include <time.h>
#include <unistd.h>

enum { PIECE = 1 << 17 };

// The requests, or the replies, of all questions twice in a row: so each run of them is one piece of bytes.
struct side {
    char *bytes;
    size_t *starts;
};

static struct side requests, replies;
static size_t questions;
static uint16_t port;

// Ends the program, with one line: where two threads fail, the second one waits here for the end.
static void fail(const char *what, const char *why)
{
    flockfile(stderr);
    fprintf(stderr, "%s: %s\n", what, why);
    exit(1);
}

static void *taken(size_t size)
{
    void *found = calloc(size, 1);
    if (!found)
        fail("memory", "it ran out");
    return found;
}

static uint64_t now(void)
{
    struct timespec time;
    clock_gettime(CLOCK_MONOTONIC, &time);
    return time.tv_sec * 1000000000ull + time.tv_nsec;
}

static char *read_file(const char *path, size_t *size)
{
    FILE *file = fopen(path, "rb");
    if (!file || fseek(file, 0, SEEK_END))
        fail(path, strerror(errno));
    *size = ftell(file);
    rewind(file);
    char *text = taken(*size + 1);
    if (fread(text, 1, *size, file) != *size)
        fail(path, "it cannot be read");
    fclose(file);
    return text;
}

static void read_questions(const char *path)
{
    size_t size, at = 0;
    char *text = read_file(path, &size);
    requests.bytes = taken(2 * size);
    replies.bytes = taken(2 * size);
    // A question has at least the eight bytes of its lengths.
    requests.starts = taken((size / 4 + 1) * sizeof(size_t));
    replies.starts = taken((size / 4 + 1) * sizeof(size_t));
    size_t count = 0;
    for (int turn = 0; turn < 2; turn++)
        for (at = 0; at + 8 <= size; count++) {
            uint32_t lengths[2];
            memcpy(lengths, text + at, 8);
            memcpy(requests.bytes + requests.starts[count], text + at + 8, lengths[0]);
            memcpy(replies.bytes + replies.starts[count], text + at + 8 + lengths[0], lengths[1]);
            requests.starts[count + 1] = requests.starts[count] + lengths[0];
            replies.starts[count + 1] = replies.starts[count] + lengths[1];
            at += 8 + (size_t)lengths[0] + lengths[1];
        }
    questions = count / 2;
    free(text);
}

static int connected(void)
{
    struct sockaddr_in address = {.sin_family = AF_INET, .sin_port = htons(port), .sin_addr.s_addr = htonl(INADDR_LOOPBACK)};
    int one = 1, made = socket(AF_INET, SOCK_STREAM, 0);
    if (made < 0 || connect(made, (struct sockaddr *)&address, sizeof address))
        fail("connect", strerror(errno));
    setsockopt(made, IPPROTO_TCP, TCP_NODELAY, &one, sizeof one);
    return made;
}

// Sends the requests from a question on, so many.
static void send_from(int socket, size_t first, size_t count)
{
    const char *piece = requests.bytes + requests.starts[first];
    size_t left = requests.starts[first + count] - requests.starts[first];
    while (left) {
        ssize_t sent = send(socket, piece, left, MSG_NOSIGNAL);
        if (sent < 0)
            fail("send", strerror(errno));
        piece += sent;
        left -= sent;
    }
}

// Whether bytes came as they were wanted.
static int fits(const char *came, const char *wanted, size_t count)
{
    for (;;) {
        const char *any = memchr(wanted, 0, count);
        size_t same = any ? (size_t)(any - wanted) : count;
        if (memcmp(came, wanted, same))
            return 0;
        if (!any)
            return 1;
        if (came[same] < '0' || came[same] > '9')
            return 0;
        came += same + 1;
        wanted += same + 1;
        count -= same + 1;
    }
}

// Takes what has come of the replies from a question on, so many, of which so many bytes came before. Whether all have come.
static int take_from(int socket, size_t first, size_t count, size_t *read, char *buffer)
{
    const char *wanted = replies.bytes + replies.starts[first];
    size_t whole = replies.starts[first + count] - replies.starts[first];
    ssize_t came = recv(socket, buffer, PIECE, 0);
    if (came <= 0)
        fail("the server", came ? strerror(errno) : "it ended a connection");
    if ((size_t)came > whole - *read || !fits(buffer, wanted + *read, came))
        fail("the server", "a reply is not as it was before");
    *read += came;
    return *read == whole;
}
