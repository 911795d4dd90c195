/* A carrier for hosts on one machine: hands each line `env FROM TO ..` to the host of TO, and loses, repeats and delays some.

       hub LOSE REPEAT DELAY SEED DESCRIPTOR..

   Percentages; a delayed line comes up to 20 milliseconds late. The descriptors are sockets, the first of host 0, and so on. Ends when
   all of them have ended. */
#include <errno.h>
#include <fcntl.h>
#include <poll.h>
#include <stdbool.h>
#include <stdint.h>
#include <stdio.h>
#include <stdlib.h>
#include <string.h>
#include <time.h>
#include <unistd.h>

enum { MOST = 16, LATE = 4096, BYTES = 1 << 20, LONGEST = 20000000 };

static struct link {
    int descriptor;
    char *in, *out;
    size_t in_length, out_length, capacity;
} links[MOST];
static struct late {
    int64_t due;
    int to;
    char *line;
    size_t length;
} late[LATE];
static int link_count, late_count, lose, repeat, delay;

static int64_t now(void) {
    struct timespec time;
    clock_gettime(CLOCK_MONOTONIC, &time);
    return time.tv_sec * INT64_C(1000000000) + time.tv_nsec;
}

static void write_out(struct link *link) {
    ssize_t count = write(link->descriptor, link->out, link->out_length);
    if (link->descriptor < 0) link->out_length = 0;
    if (count <= 0) return;
    link->out_length -= (size_t)count;
    memmove(link->out, link->out + count, link->out_length);
}

static void hand(int to, const char *line, size_t length) {
    struct link *link = &links[to];
    if (link->capacity - link->out_length < length) {
        link->capacity = 2 * link->capacity + length;
        link->out = realloc(link->out, link->capacity);
    }
    memcpy(link->out + link->out_length, line, length);
    link->out_length += length;
    write_out(link);
}

static void hand_later(int to, const char *line, size_t length) {
    if (late_count == LATE) return;
    char *kept = malloc(length);
    memcpy(kept, line, length);
    late[late_count++] = (struct late){now() + random() % LONGEST, to, kept, length};
}

static bool one_of(int percent) {
    return random() % 100 < percent;
}

static void carry(const char *line, size_t length) {
    int to;
    if (sscanf(line, "env %*d %d", &to) != 1 || to < 0 || to >= link_count) return;
    if (one_of(repeat)) hand_later(to, line, length);
    if (one_of(lose)) return;
    if (one_of(delay)) hand_later(to, line, length);
    else hand(to, line, length);
}

static bool take(struct link *link) {
    ssize_t count = read(link->descriptor, link->in + link->in_length, BYTES - link->in_length);
    if (count <= 0) return count < 0 && errno == EAGAIN;
    link->in_length += (size_t)count;
    link->in[link->in_length] = '\0';
    char *start = link->in, *feed;
    while ((feed = memchr(start, '\n', link->in_length - (size_t)(start - link->in))) != NULL) {
        size_t length = (size_t)(feed + 1 - start);
        carry(start, length);
        start = feed + 1;
    }
    link->in_length -= (size_t)(start - link->in);
    memmove(link->in, start, link->in_length);
    return true;
}

static int64_t hand_due(void) {
    int64_t next = INT64_MAX, time = now();
    for (int index = 0; index < late_count;) {
        if (late[index].due > time) {
            if (late[index].due < next) next = late[index].due;
            index++;
            continue;
        }
        hand(late[index].to, late[index].line, late[index].length);
        free(late[index].line);
        late[index] = late[--late_count];
    }
    return next;
}

int main(int argc, char **argv) {
    int open = argc - 5;
    if (open < 1 || open > MOST) return 2;
    lose = atoi(argv[1]), repeat = atoi(argv[2]), delay = atoi(argv[3]);
    srandom((unsigned)atoi(argv[4]));
    for (int index = 5; index < argc; index++) {
        links[link_count] = (struct link){.descriptor = atoi(argv[index]), .in = malloc(BYTES + 1)};
        fcntl(links[link_count++].descriptor, F_SETFL, O_NONBLOCK);
    }
    for (;;) {
        struct pollfd ready[MOST];
        int64_t due = hand_due(), wait = due - now();
        for (int index = 0; index < link_count; index++) ready[index] = (struct pollfd){links[index].descriptor, (short)(POLLIN | (links[index].out_length > 0 ? POLLOUT : 0)), 0};
        struct timespec timeout = {wait / 1000000000, wait < 0 ? 0 : wait % 1000000000};
        if (wait < 0) timeout.tv_sec = 0;
        ppoll(ready, (nfds_t)link_count, due == INT64_MAX ? NULL : &timeout, NULL);
        for (int index = 0; index < link_count; index++) {
            if (ready[index].revents & POLLOUT) write_out(&links[index]);
            if (ready[index].revents & (POLLIN | POLLHUP | POLLERR) && !take(&links[index])) links[index].descriptor = -1, open--;
        }
        if (open == 0) return 0;
    }
}
