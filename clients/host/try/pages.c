/* pages KEY put|get PAGES ROUNDS: one program stores each round's number to all pages, in order. Others read them in the same order meanwhile: no page
   has an earlier round than it had before, nor one that is more than one before what the page in front of it had. */
#include <stdio.h>
#include <stdlib.h>
#include <string.h>
#include <sys/shm.h>
#include <unistd.h>

enum { MOST = 256, WORDS = 512 };

static void put(volatile long *words, int pages, long rounds) {
    for (long turn = 0; turn < pages * rounds; turn++) {
        if (turn % pages == 0) usleep(1000); /* or all were stored before anybody reads */
        words[turn % pages * WORDS] = turn / pages + 1;
    }
}

static int read_all(volatile long *words, int pages, long *had) {
    int wrong = 0;
    for (int page = 0; page < pages; page++) {
        long round = words[page * WORDS];
        wrong += round < had[page] || (page > 0 && round < had[page - 1] - 1);
        had[page] = round;
    }
    return wrong;
}

int main(int argc, char **argv) {
    static long had[MOST];
    if (argc < 5) return 2;
    int pages = atoi(argv[3]), wrong = 0;
    long rounds = atol(argv[4]);
    void *memory = shmat(shmget((key_t)atoi(argv[1]), (size_t)pages * 4096, IPC_CREAT | 0666), NULL, 0);
    if (memory == (void *)-1) return perror("shmat"), 1;
    if (strcmp(argv[2], "put") == 0) put(memory, pages, rounds);
    else while (had[pages - 1] < rounds) wrong += read_all(memory, pages, had);
    printf("%d\n", wrong);
    return wrong != 0;
}
