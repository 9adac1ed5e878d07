// Clients that send one message after another to a server on 127.0.0.1, for bench/gateway.
//
//     gateway_load MESSAGES ANSWERS PORT STEP CLIENTS EACH TOTAL
//
// MESSAGES and ANSWERS are files of frames: two bytes of length, then as many bytes. Client k connects to
// PORT + k * STEP, sends a message, reads its reply, which must be the one that ANSWERS has, and sends the next one, over
// and over; after EACH messages it connects anew (0: never). Prints the messages a second, and the time from a message's
// send to its reply in microseconds: the one in the middle, and that at the 99th per cent. The clients share TOTAL
// messages, and one thread.
#include <arpa/inet.h>
#include <netinet/tcp.h>
#include <stdint.h>
#include <stdio.h>
#include <stdlib.h>
#include <string.h>
#include <sys/epoll.h>
#include <sys/socket.h>
#include <time.h>
#include <unistd.h>

#include "frames.h"

enum { HELD = 4096, EVENTS = 256 };

typedef struct {
    int number, port, to, count; // count: bytes of the reply that were read
    long sent;
    double start;
    unsigned char held[HELD];
} Client;

static Frames messages, answers;
static int events_of;
static uint32_t *micros;
static long answered;

static double now(void)
{
    struct timespec time;
    clock_gettime(CLOCK_MONOTONIC, &time);
    return (double)time.tv_sec + (double)time.tv_nsec / 1e9;
}

// Connects a client. Gives whether it is connected.
static int connects(Client *client)
{
    struct sockaddr_in address = {.sin_family = AF_INET, .sin_addr.s_addr = htonl(INADDR_LOOPBACK)};
    const struct linger reset = {1, 0};
    const int on = 1;
    struct epoll_event event = {.events = EPOLLIN, .data.ptr = client};
    address.sin_port = htons((uint16_t)client->port);
    client->to = socket(AF_INET, SOCK_STREAM, 0);
    if (connect(client->to, (struct sockaddr *)&address, sizeof address))
        return 0;
    setsockopt(client->to, IPPROTO_TCP, TCP_NODELAY, &on, sizeof on);
    // A port is free again at once, so that a run cannot use them all up.
    setsockopt(client->to, SOL_SOCKET, SO_LINGER, &reset, sizeof reset);
    return epoll_ctl(events_of, EPOLL_CTL_ADD, client->to, &event) == 0;
}

static int place(const Client *client)
{
    return (int)((client->number + client->sent) % messages.count);
}

// Sends a client's next message, over a new connection after each so many. Gives whether it was sent.
static int sends(Client *client, long each)
{
    const int i = place(client);
    if (each && client->sent && client->sent % each == 0) {
        close(client->to);
        if (!connects(client))
            return 0;
    }
    client->count = 0;
    client->start = now();
    return write(client->to, messages.at[i], (size_t)messages.size[i]) == messages.size[i];
}

// Reads of a reply what is there. Gives 1 where it is whole, 0 where more is to come, -1 where it is another one.
static int reads(Client *client)
{
    const int i = place(client), size = answers.size[i];
    const ssize_t more = read(client->to, client->held + client->count, HELD - (size_t)client->count);
    if (more <= 0)
        return -1;
    client->count += (int)more;
    if (client->count < size)
        return 0;
    return client->count == size && !memcmp(client->held, answers.at[i], (size_t)size) ? 1 : -1;
}

static int ascending(const void *one, const void *other)
{
    const uint32_t a = *(const uint32_t *)one, b = *(const uint32_t *)other;
    return (a > b) - (a < b);
}

// Serves the replies that came, until all are there. Gives whether all were the ones wanted.
static int drives(long each, long share, long total)
{
    struct epoll_event events[EVENTS];
    while (answered < total) {
        const int count = epoll_wait(events_of, events, EVENTS, 20000);
        if (count <= 0)
            return 0;
        for (int k = 0; k < count; k++) {
            Client *client = events[k].data.ptr;
            const int state = reads(client);
            if (state < 0)
                return 0;
            if (state == 0)
                continue;
            micros[answered++] = (uint32_t)((now() - client->start) * 1e6);
            if (++client->sent < share && !sends(client, each))
                return 0;
        }
    }
    return 1;
}

static int run(int port, int step, int clients, long each, long total)
{
    Client *all = calloc((size_t)clients, sizeof *all);
    const long share = total / clients, count = share * clients;
    events_of = epoll_create1(0);
    micros = calloc((size_t)count, sizeof *micros);
    for (int k = 0; k < clients; k++) {
        all[k].number = k, all[k].port = port + k * step;
        if (!connects(&all[k]))
            return 3;
    }
    const double start = now();
    for (int k = 0; k < clients; k++)
        if (!sends(&all[k], each))
            return 1;
    if (!drives(each, share, count))
        return 1;
    const double seconds = now() - start;
    qsort(micros, (size_t)count, sizeof *micros, ascending);
    printf("%.0f %u %u\n", (double)count / seconds, micros[count / 2], micros[count * 99 / 100]);
    return 0;
}

int main(int count, char **arguments)
{
    if (count == 8 && read_frames(arguments[1], &messages) && read_frames(arguments[2], &answers) &&
        answers.count == messages.count)
        return run(atoi(arguments[3]), atoi(arguments[4]), atoi(arguments[5]), atol(arguments[6]), atol(arguments[7]));
    return 2;
}
