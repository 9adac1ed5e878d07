// Clients that keep messages under way to a server on 127.0.0.1, for bench/serve.
//
//     serve_load answers MESSAGES PORT                              writes the reply frames, each message sent alone
//     serve_load run MESSAGES ANSWERS PORT STEP LANES UNDER TOTAL   prints the messages a second
//
// MESSAGES and ANSWERS are files of frames: two bytes of length, then as many bytes. Lane k connects to PORT + k * STEP, has
// UNDER messages under way, and for each reply that it read sends the next message; what came together is sent together.
// The messages are those of the file, over and over. Each reply must be the one that ANSWERS has for its message. The time
// is that from the first send of any lane to the last reply.
#include <arpa/inet.h>
#include <netinet/tcp.h>
#include <pthread.h>
#include <stdint.h>
#include <stdio.h>
#include <stdlib.h>
#include <string.h>
#include <sys/socket.h>
#include <time.h>
#include <unistd.h>

#include "frames.h"

typedef struct {
    int port, under;
    long total;
    int failed;
} Lane;

static Frames messages, answers;
static pthread_barrier_t begun;

static int connected(int port)
{
    struct sockaddr_in address = {.sin_family = AF_INET, .sin_addr.s_addr = htonl(INADDR_LOOPBACK)};
    const int made = socket(AF_INET, SOCK_STREAM, 0), on = 1;
    address.sin_port = htons((uint16_t)port);
    if (connect(made, (struct sockaddr *)&address, sizeof address))
        return -1;
    setsockopt(made, IPPROTO_TCP, TCP_NODELAY, &on, sizeof on);
    return made;
}

static int send_all(int to, const unsigned char *bytes, long count)
{
    while (count > 0) {
        const ssize_t done = write(to, bytes, (size_t)count);
        if (done <= 0)
            return 0;
        bytes += done, count -= done;
    }
    return 1;
}

// Appends the next messages, of which *place is the first, to a piece.
static long append(unsigned char *piece, int *place, long count)
{
    long size = 0;
    for (; count > 0; count--) {
        memcpy(piece + size, messages.at[*place], (size_t)messages.size[*place]);
        size += messages.size[*place];
        *place = (*place + 1) % messages.count;
    }
    return size;
}

static int runs(const Lane *lane, int to)
{
    static _Thread_local unsigned char piece[ROOM], held[1 << 17];
    int next = 0, wanted = 0;
    long sent = lane->under < lane->total ? lane->under : lane->total, got = 0, count = 0;
    if (!send_all(to, piece, append(piece, &next, sent)))
        return 0;
    while (got < lane->total) {
        const ssize_t more = read(to, held + count, sizeof held - (size_t)count);
        if (more <= 0)
            return 0;
        count += more;
        long at = 0, replies = 0;
        while (count - at >= 2 && count - at >= 2 + (held[at] << 8 | held[at + 1])) {
            const int size = 2 + (held[at] << 8 | held[at + 1]);
            if (size != answers.size[wanted] || memcmp(held + at, answers.at[wanted], (size_t)size))
                return 0;
            at += size, replies++;
            wanted = (wanted + 1) % messages.count;
        }
        memmove(held, held + at, (size_t)(count - at));
        count -= at, got += replies;
        const long left = lane->total - sent, now = replies < left ? replies : left;
        if (now > 0 && !send_all(to, piece, append(piece, &next, now)))
            return 0;
        sent += now;
    }
    return 1;
}

static void *drive(void *argument)
{
    Lane *lane = argument;
    const int to = connected(lane->port);
    pthread_barrier_wait(&begun);
    lane->failed = to < 0 || !runs(lane, to);
    if (to >= 0)
        close(to);
    return NULL;
}

static int run(int port, int step, int lanes, int under, long total)
{
    Lane *all = calloc((size_t)lanes, sizeof *all);
    pthread_t *threads = calloc((size_t)lanes, sizeof *threads);
    struct timespec start, end;
    int failed = 0;
    pthread_barrier_init(&begun, NULL, (unsigned)lanes + 1);
    for (int k = 0; k < lanes; k++) {
        all[k] = (Lane){port + k * step, under, total / lanes, 0};
        if (pthread_create(&threads[k], NULL, drive, &all[k]))
            return 4;
    }
    pthread_barrier_wait(&begun);
    clock_gettime(CLOCK_MONOTONIC, &start);
    for (int k = 0; k < lanes; k++) {
        pthread_join(threads[k], NULL);
        failed += all[k].failed;
    }
    clock_gettime(CLOCK_MONOTONIC, &end);
    if (failed)
        return 1;
    const double seconds = (double)(end.tv_sec - start.tv_sec) + (double)(end.tv_nsec - start.tv_nsec) / 1e9;
    printf("%.0f\n", (double)(total / lanes * lanes) / seconds);
    return 0;
}

// Writes the reply frame of each message.
static int ask(int port)
{
    static unsigned char held[1 << 17];
    const int to = connected(port);
    if (to < 0)
        return 3;
    for (int i = 0; i < messages.count; i++) {
        long count = 0;
        if (!send_all(to, messages.at[i], messages.size[i]))
            return 1;
        while (count < 2 || count < 2 + (held[0] << 8 | held[1])) {
            const ssize_t more = read(to, held + count, sizeof held - (size_t)count);
            if (more <= 0)
                return 1;
            count += more;
        }
        fwrite(held, 1, (size_t)count, stdout);
    }
    close(to);
    return 0;
}

int main(int count, char **arguments)
{
    if (count == 4 && !strcmp(arguments[1], "answers") && read_frames(arguments[2], &messages))
        return ask(atoi(arguments[3]));
    if (count == 9 && !strcmp(arguments[1], "run") && read_frames(arguments[2], &messages) &&
        read_frames(arguments[3], &answers) && answers.count == messages.count)
        return run(atoi(arguments[4]), atoi(arguments[5]), atoi(arguments[6]), atoi(arguments[7]), atol(arguments[8]));
    return 2;
}
