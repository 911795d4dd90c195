/* leddwyfan-run: runs a program over this machine's leddwyfan-host: its System V segments and semaphores are then those of all machines.

       leddwyfan-run [--socket PATH] PROGRAM [WORD..]

   Where no daemon answers it starts nothing, and its status is 1. */
#include "wire.h"

#include <err.h>
#include <limits.h>

/* The library that is preloaded: the one that LEDDWYFAN_LIBRARY names, the one beside this program, or the installed one. */
static const char *find_library(void) {
    static const char *const places[] = {"libleddwyfan.so", "../lib/leddwyfan/libleddwyfan.so"};
    static char name[PATH_MAX + 64];
    char here[PATH_MAX] = "";
    const char *named = getenv("LEDDWYFAN_LIBRARY");
    if (named != NULL && access(named, R_OK) == 0) return named;
    if (readlink("/proc/self/exe", here, sizeof here - 1) < 0) err(1, "/proc/self/exe");
    *strrchr(here, '/') = '\0';
    for (size_t place = 0; place < sizeof places / sizeof *places; place++) {
        snprintf(name, sizeof name, "%s/%s", here, places[place]);
        if (access(name, R_OK) == 0) return name;
    }
    err(1, "%s", name);
}

int main(int argc, char **argv) {
    char **words = argv + 1, *preloads;
    if (argc > 2 && strcmp(*words, "--socket") == 0) {
        setenv("LEDDWYFAN_SOCKET", words[1], 1);
        words += 2;
    }
    if (*words == NULL) errx(2, "[--socket PATH] PROGRAM [WORD..]");
    const char *library = find_library(), *others = getenv("LD_PRELOAD");
    int host = connect_to(socket_path());
    if (host < 0) err(1, "no leddwyfan-host answers at %s", socket_path());
    close(host);
    if (asprintf(&preloads, others == NULL ? "%s" : "%s:%s", library, others) < 0) errx(1, "no memory");
    setenv("LD_PRELOAD", preloads, 1);
    execvp(*words, words);
    err(errno == ENOENT ? 127 : 126, "%s can't be started", *words);
}
