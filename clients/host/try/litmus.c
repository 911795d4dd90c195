/* litmus KEY TEST ROLE ROUNDS [plain]: a litmus test, each of whose roles is a program; x and y are on pages of their own, each round has
   words of its own, and the roles meet before each. Role 0 tells how many rounds had the outcome that must not be. `plain` leaves out fences.

   | TEST | Roles                                  | Must not be                          |
   | sb   | x=1 a=y, y=1 b=x                       | a=0 b=0 (without fences it may)      |
   | mp   | x=1 y=1, a=y b=x                       | a=1 b=0                              |
   | lb   | a=x y=1, b=y x=1                       | a=1 b=1                              |
   | ww   | x=1 y=2, y=1 x=2                       | x=1 y=1 at the end                   |
   | co   | x=1 x=2, a=x b=x                       | b before a                           |
   | iriw | x=1, y=1, a=x b=y, c=y d=x             | a=1 b=0 c=1 d=0                      | */
#include <stdbool.h>
#include <stdio.h>
#include <stdlib.h>
#include <string.h>
#include <sys/shm.h>
#include <unistd.h>

enum { MOST = 2048, ROLES = 4 };

struct memory {
    volatile int met, told;
    char to_the_next_page[4096 - 2 * sizeof(int)];
    volatile unsigned short x[MOST], y[MOST];
    unsigned char seen[ROLES][2][MOST];
};

static struct memory *memory;
static bool plain;

static void fence(void) {
    if (!plain) __sync_synchronize();
}

static void meet(int roles, int round) {
    __atomic_add_fetch(&memory->met, 1, __ATOMIC_SEQ_CST);
    while (__atomic_load_n(&memory->met, __ATOMIC_SEQ_CST) < roles * (round + 1)) usleep(20);
    for (volatile int pause = 0, until = rand() % 2000; pause < until;) pause = pause + 1;
}

static void load_two(int role, int round, volatile unsigned short *first, volatile unsigned short *second) {
    unsigned short one = first[round];
    fence();
    unsigned short other = second[round];
    memory->seen[role][0][round] = (unsigned char)one;
    memory->seen[role][1][round] = (unsigned char)other;
}

static void store_two(int round, volatile unsigned short *first, unsigned short one, volatile unsigned short *second, unsigned short other) {
    first[round] = one;
    fence();
    second[round] = other;
}

static void store_load(int role, int round, volatile unsigned short *first, volatile unsigned short *second) {
    first[round] = 1;
    fence();
    memory->seen[role][0][round] = (unsigned char)second[round];
}

static void load_store(int role, int round, volatile unsigned short *first, volatile unsigned short *second) {
    unsigned short one = first[round];
    fence();
    second[round] = 1;
    memory->seen[role][0][round] = (unsigned char)one;
}

static void play(const char *test, int role, int round) {
    volatile unsigned short *x = memory->x, *y = memory->y;
    volatile unsigned short *mine = role == 0 ? x : y, *other = role == 0 ? y : x;
    if (strcmp(test, "sb") == 0) store_load(role, round, mine, other);
    else if (strcmp(test, "lb") == 0) load_store(role, round, mine, other);
    else if (strcmp(test, "ww") == 0) store_two(round, mine, 1, other, 2);
    else if (strcmp(test, "mp") == 0 && role == 0) store_two(round, x, 1, y, 1);
    else if (strcmp(test, "mp") == 0) load_two(role, round, y, x);
    else if (strcmp(test, "co") == 0 && role == 0) store_two(round, x, 1, x, 2);
    else if (strcmp(test, "co") == 0) load_two(role, round, x, x);
    else if (role < 2) mine[round] = 1;
    else load_two(role, round, role == 2 ? x : y, role == 2 ? y : x);
}

static bool must_not_be(const char *test, int round) {
    int a = memory->seen[0][0][round], b = memory->seen[1][0][round], first = memory->seen[1][0][round], second = memory->seen[1][1][round];
    if (strcmp(test, "sb") == 0) return a == 0 && b == 0;
    if (strcmp(test, "lb") == 0) return a == 1 && b == 1;
    if (strcmp(test, "ww") == 0) return memory->x[round] == 1 && memory->y[round] == 1;
    if (strcmp(test, "mp") == 0) return first == 1 && second == 0;
    if (strcmp(test, "co") == 0) return second < first;
    return memory->seen[2][0][round] == 1 && memory->seen[2][1][round] == 0 && memory->seen[3][0][round] == 1 && memory->seen[3][1][round] == 0;
}

int main(int argc, char **argv) {
    if (argc < 5) return 2;
    const char *test = argv[2];
    int role = atoi(argv[3]), rounds = atoi(argv[4]), roles = strcmp(test, "iriw") == 0 ? 4 : 2, wrong = 0;
    plain = argc > 5;
    memory = shmat(shmget((key_t)atoi(argv[1]), sizeof *memory, IPC_CREAT | 0666), NULL, 0);
    if (memory == (void *)-1) return perror("shmat"), 1;
    srand((unsigned)role + 1);
    for (int round = 0; round < rounds && round < MOST; round++) {
        meet(roles, round);
        play(test, role, round);
    }
    __atomic_add_fetch(&memory->told, 1, __ATOMIC_SEQ_CST);
    while (role == 0 && __atomic_load_n(&memory->told, __ATOMIC_SEQ_CST) < roles) usleep(100);
    for (int round = 0; role == 0 && round < rounds; round++) wrong += must_not_be(test, round);
    printf("%d\n", wrong);
    return 0;
}
