/* Sites that share a counter: each adds 1 to it so many times, and at the end it is the sum.

       counter -n SITES -m ME [-p PROGRAM] [-t TIMES] [-j JOURNAL [-N]]

   The stream comes in on standard input and goes out on standard output, as for `shmdbg site`; the counter's value is told on standard error.
   Run one for each site; clients/python/counter.py is the same program, says what the segment has, and the two may be mixed. */
#include "leddwyfan.h"

#include <errno.h>
#include <stdio.h>
#include <stdlib.h>
#include <string.h>
#include <time.h>
#include <unistd.h>

enum { KEY = 77, PAGE = LEDDWYFAN_PAGE_BYTES, MOST_SITES = 16, LOCK = 0, DONE = MOST_SITES * PAGE, COUNTER = DONE + 64, COUNTER_BYTES = 4 };
enum { SEGMENT_BYTES = DONE + PAGE, TRIES = 4, GIVE_UP_SECONDS = 300, LEAVE_SECONDS = 3 };

/* The counter, as one site sees it. */
struct counter {
    struct leddwyfan *site;
    unsigned sites, me;
    int at;
    time_t give_up;
};

static void fail(const char *what) {
    fprintf(stderr, "counter: %s: %s\n", what, strerror(errno));
    exit(1);
}

/* How many sites are done. */
static unsigned done(const struct counter *counter) {
    unsigned char bytes[MOST_SITES];
    unsigned count = 0;
    if (shm_read(counter->site, counter->at, DONE, bytes, counter->sites) < 0) fail("load");
    for (unsigned place = 0; place < counter->sites; place++) count += bytes[place] != 0;
    return count;
}

static void wait_for_all(const struct counter *counter) {
    const struct timespec spin = {0, 2000000};
    while (done(counter) != counter->sites) {
        if (time(NULL) > counter->give_up) {
            errno = ETIMEDOUT;
            fail("the other sites took too long");
        }
        nanosleep(&spin, NULL);
    }
}

static unsigned long value(const struct counter *counter) {
    unsigned char bytes[COUNTER_BYTES];
    unsigned long sum = 0;
    if (shm_read(counter->site, counter->at, COUNTER, bytes, COUNTER_BYTES) < 0) fail("load");
    for (int place = COUNTER_BYTES - 1; place >= 0; place--) sum = 256 * sum + bytes[place];
    return sum;
}

static void add(const struct counter *counter) {
    unsigned char bytes[COUNTER_BYTES];
    if (shm_lock(counter->site, counter->at, LOCK) < 0) fail("lock");
    unsigned long sum = value(counter) + 1;
    for (int place = 0; place < COUNTER_BYTES; place++) bytes[place] = (unsigned char)(sum >> 8 * place);
    if (shm_write(counter->site, counter->at, COUNTER, bytes, COUNTER_BYTES) < 0) fail("store");
    if (shm_unlock(counter->site, counter->at, LOCK) < 0) fail("unlock");
}

/* Attaches the segment. A call whose site was killed under it may have been executed, and does no harm a second time. */
static void attach(struct counter *counter) {
    int shmid = -1, tries = 0;
    do shmid = shm_get(counter->site, KEY, SEGMENT_BYTES, IPC_CREAT | 0666);
    while (shmid < 0 && errno == EIO && ++tries < TRIES);
    if (shmid < 0) fail("shm_get");
    do counter->at = shm_at(counter->site, shmid, 0);
    while (counter->at < 0 && errno == EIO && ++tries < TRIES);
    if (counter->at < 0) fail("shm_at");
}

static void count(struct counter *counter, unsigned long times) {
    attach(counter);
    for (unsigned long time = 0; time < times; time++) add(counter);
    if (shm_write(counter->site, counter->at, DONE + counter->me, "\1", 1) < 0) fail("store");
    wait_for_all(counter);
    fprintf(stderr, "counter %lu\n", value(counter));
}

static unsigned number(const char *word, unsigned long most) {
    char *end;
    errno = 0;
    unsigned long number = strtoul(word, &end, 10);
    if (*word == '\0' || *end != '\0' || errno != 0 || number > most) {
        fprintf(stderr, "counter: no such number: %s\n", word);
        exit(2);
    }
    return (unsigned)number;
}

int main(int argc, char **argv) {
    char *program[] = {"shmdbg", NULL};
    struct leddwyfan_options options = {.program = program, .pages = 1, .reader = 0, .writer = 1, .timeout = 60};
    unsigned times = 100;
    for (int option; (option = getopt(argc, argv, "n:m:p:t:j:N")) != -1;) {
        switch (option) {
        case 'n': options.sites = number(optarg, MOST_SITES); break;
        case 'm': options.me = number(optarg, MOST_SITES - 1); break;
        case 'p': program[0] = optarg; break;
        case 't': times = number(optarg, 1000000); break;
        case 'j': options.journal = optarg; break;
        case 'N': options.begin = true; break;
        default: return 2;
        }
    }
    if (options.me >= options.sites) {
        fprintf(stderr, "counter -n SITES -m ME [-p PROGRAM] [-t TIMES] [-j JOURNAL [-N]]\n");
        return 2;
    }
    struct counter counter = {.sites = options.sites, .me = options.me, .give_up = time(NULL) + GIVE_UP_SECONDS};
    counter.site = leddwyfan_start(&options);
    if (counter.site == NULL) fail("start");
    count(&counter, times);
    /* The others may not have seen yet that all are done, and need this site for it. */
    leddwyfan_leave(counter.site, LEAVE_SECONDS);
    return 0;
}
