/* words KEY: takes lines `WORD TIMES` from its input: adds 1 to that word so often, by loads and stores without a lock, and tells what it then
   has. So who asks several of these, on several machines, knows what each word must be, and sees a wrong value where a program would wait. */
#include <stdio.h>
#include <stdlib.h>
#include <sys/shm.h>

enum { WORDS = 1024 }; /* of two pages */

int main(int argc, char **argv) {
    unsigned word, times;
    if (argc < 2) return 2;
    volatile unsigned *words = shmat(shmget((key_t)atoi(argv[1]), 2 * WORDS * sizeof *words, IPC_CREAT | 0666), NULL, 0);
    if (words == (void *)-1) return perror("shmat"), 1;
    while (scanf("%u %u", &word, &times) == 2 && word < 2 * WORDS) {
        for (unsigned turn = 0; turn < times; turn++) words[word]++;
        printf("%u\n", words[word]);
        fflush(stdout);
    }
    return 0;
}
