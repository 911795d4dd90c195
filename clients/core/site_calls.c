/* The calls of single sites that examples/c/sites.c doesn't make: empty and full handles, wrong numbers, bad lines and foreign messages, short
 * buffers, copies, a segment call with its reply, and each allocation refused in turn. clients/core/try links it with malloc and realloc
 * wrapped. Ends with 1 at the first wrong answer. */
#include "leddwyfan_core.h"

#include <inttypes.h>
#include <stdio.h>
#include <stdlib.h>
#include <string.h>

#define NEED(holds) do { if (!(holds)) { fprintf(stderr, "%s:%d: not so: %s\n", __FILE__, __LINE__, #holds); exit(1); } } while (0)

static long allowed = -1; /* so many allocations succeed, then one is refused; all where it is below 0 */
void *__real_malloc(size_t bytes);
void *__wrap_malloc(size_t bytes);
void *__real_realloc(void *block, size_t bytes);
void *__wrap_realloc(void *block, size_t bytes);

void *__wrap_malloc(size_t bytes)
{
    return allowed-- == 0 ? NULL : __real_malloc(bytes);
}

void *__wrap_realloc(void *block, size_t bytes)
{
    return allowed-- == 0 ? NULL : __real_realloc(block, bytes);
}

static struct leddwyfan_site sites[2] = { LEDDWYFAN_SITE_EMPTY, LEDDWYFAN_SITE_EMPTY };
static struct leddwyfan_reply reply;
static char line[LEDDWYFAN_LINE_BYTES], other[LEDDWYFAN_LINE_BYTES];

static struct leddwyfan_answer deliver(struct leddwyfan_site *site, const char *text)
{
    return leddwyfan_site_deliver(site, text, strlen(text), &reply);
}

static bool same(struct leddwyfan_site *a, struct leddwyfan_site *b)
{
    struct leddwyfan_shown x = leddwyfan_site_shown(a, 0, 0), y = leddwyfan_site_shown(b, 0, 0);
    if (leddwyfan_site_sent(a) != leddwyfan_site_sent(b) || x.state != y.state || x.seen != y.seen)
        return false;
    for (size_t k = 0; k < leddwyfan_site_sent(a); k++) {
        size_t length = leddwyfan_site_message(a, k, line, sizeof line);
        if (length == 0 || leddwyfan_site_message(b, k, other, sizeof other) != length || memcmp(line, other, length) != 0)
            return false;
    }
    return leddwyfan_site_access(a, 0, 0) == leddwyfan_site_access(b, 0, 0);
}

/* Hands a message over, after each allocation was refused in turn: nothing may have changed then. */
static struct leddwyfan_answer deliver_at_last(uint32_t to, const char *text, size_t length)
{
    struct leddwyfan_site before = LEDDWYFAN_SITE_EMPTY;
    NEED(leddwyfan_site_copy(&sites[to], &before) == LEDDWYFAN_OK);
    for (long spared = 0;; spared++) {
        allowed = spared;
        struct leddwyfan_answer answer = leddwyfan_site_deliver(&sites[to], text, length, &reply);
        allowed = -1;
        if (answer.kind != LEDDWYFAN_NO_MEMORY) {
            leddwyfan_site_free(&before);
            return answer;
        }
        NEED(spared < 100 && reply.kind == LEDDWYFAN_NO_REPLY && same(&sites[to], &before));
    }
}

/* Carries all that this site's last step sent, and what that leads to. Gives the reply that came, if any. */
static struct leddwyfan_reply carry(uint32_t from)
{
    struct leddwyfan_reply came = { 0 };
    size_t count = leddwyfan_site_sent(&sites[from]);
    char (*texts)[LEDDWYFAN_LINE_BYTES + 1] = calloc(count + 1, sizeof *texts);
    NEED(texts != NULL);
    for (size_t k = 0; k < count; k++)
        NEED(leddwyfan_site_message(&sites[from], k, texts[k], LEDDWYFAN_LINE_BYTES) > 0);
    for (size_t k = 0; k < count; k++) {
        uint32_t to;
        NEED(sscanf(texts[k], "env %*u %" SCNu32, &to) == 1 && to < 2);
        struct leddwyfan_answer answer = deliver_at_last(to, texts[k], strlen(texts[k]));
        NEED(answer.kind == LEDDWYFAN_TOOK || answer.kind == LEDDWYFAN_REPLIED);
        struct leddwyfan_reply now = reply, later = carry(to);
        came = now.kind != 0 ? now : later.kind != 0 ? later : came;
    }
    free(texts);
    return came;
}

static void empty_handles(void)
{
    struct leddwyfan_site none = LEDDWYFAN_SITE_EMPTY;
    struct leddwyfan_call call = { .kind = LEDDWYFAN_GET };
    NEED(leddwyfan_site_load(&none, 0, 0).kind == LEDDWYFAN_NO_SITE && leddwyfan_site_store(&none, 0, 0, 1).kind == LEDDWYFAN_NO_SITE);
    NEED(leddwyfan_site_tick(&none).kind == LEDDWYFAN_NO_SITE && leddwyfan_site_restart(&none).kind == LEDDWYFAN_NO_SITE);
    NEED(leddwyfan_site_begin(&none, &call).kind == LEDDWYFAN_NO_SITE && deliver(&none, "env").kind == LEDDWYFAN_NO_SITE);
    NEED(leddwyfan_site_sent(&none) == 0 && leddwyfan_site_message(&none, 0, line, sizeof line) == 0);
    NEED(leddwyfan_site_access(&none, 0, 0) == 3 && leddwyfan_site_shown(&none, 0, 0).state == LEDDWYFAN_NO_PAGE);
    NEED(leddwyfan_site_copy(&none, &sites[0]) == LEDDWYFAN_EMPTY && sites[0].at == NULL);
    leddwyfan_site_free(&none);
    NEED(leddwyfan_site_make(&none, 0, 0, 1, 0) == LEDDWYFAN_BAD_NUMBERS && leddwyfan_site_make(&none, 17, 0, 1, 0) == LEDDWYFAN_BAD_NUMBERS);
    NEED(leddwyfan_site_make(&none, 2, 2, 1, 0) == LEDDWYFAN_BAD_NUMBERS && leddwyfan_site_make(&none, 2, 0, 257, 0) == LEDDWYFAN_BAD_NUMBERS);
    NEED(leddwyfan_site_make(&none, 2, 0, 1, 65537) == LEDDWYFAN_BAD_NUMBERS && none.at == NULL);
}

static void fault_and_messages(void)
{
    const char *ask = "env 1 0 0 0 0 ask 0 0 1 read";
    struct leddwyfan_site copy = LEDDWYFAN_SITE_EMPTY;
    NEED(leddwyfan_site_store(&sites[0], 0, 5, 7).kind == LEDDWYFAN_STORED && leddwyfan_site_sent(&sites[0]) == 0);
    NEED(leddwyfan_site_load(&sites[1], 0, 5).kind == LEDDWYFAN_FAULT && leddwyfan_site_sent(&sites[1]) == 1);
    memset(line, '#', sizeof line);
    NEED(leddwyfan_site_message(&sites[1], 0, line, strlen(ask) - 1) == strlen(ask) && line[0] == '#');
    NEED(leddwyfan_site_message(&sites[1], 0, line, strlen(ask)) == strlen(ask));
    NEED(memcmp(line, ask, strlen(ask)) == 0 && line[strlen(ask)] == '#' && leddwyfan_site_message(&sites[1], 1, line, sizeof line) == 0);
    allowed = 0;
    NEED(leddwyfan_site_message(&sites[1], 0, line, sizeof line) == 0);
    allowed = 0;
    NEED(leddwyfan_site_copy(&sites[1], &copy) == LEDDWYFAN_OUT_OF_MEMORY);
    allowed = -1;
    NEED(leddwyfan_site_copy(&sites[1], &copy) == LEDDWYFAN_OK && leddwyfan_site_copy(&sites[1], &copy) == LEDDWYFAN_FULL);
    struct leddwyfan_answer foreign = deliver(&sites[1], ask);
    NEED(foreign.kind == LEDDWYFAN_REFUSED && foreign.value == 16 && deliver(&sites[1], "env 1 0").kind == LEDDWYFAN_NO_LINE);
    NEED(deliver(&sites[1], "ask 1 a tick").kind == LEDDWYFAN_NO_LINE && deliver(&sites[1], "").kind == LEDDWYFAN_NO_LINE);
    NEED(leddwyfan_site_load(&copy, 0, 4096).kind == LEDDWYFAN_REFUSED && leddwyfan_site_sent(&copy) == 0 && !same(&copy, &sites[1]));
    leddwyfan_site_free(&copy);
    NEED(leddwyfan_site_copy(&sites[1], &copy) == LEDDWYFAN_OK && same(&copy, &sites[1]));
    leddwyfan_site_free(&copy);
    carry(1);
    struct leddwyfan_answer answer = leddwyfan_site_load(&sites[1], 0, 5);
    NEED(answer.kind == LEDDWYFAN_BYTE && answer.value == 7 && leddwyfan_site_access(&sites[1], 0, 0) == 1);
}

static void segment_calls(void)
{
    struct leddwyfan_call get = { .kind = LEDDWYFAN_GET, .key = 5, .size = 100, .mode = 0600, .flags = 01000 }, wrong = { .kind = 9 };
    NEED(leddwyfan_site_begin(&sites[1], &wrong).kind == LEDDWYFAN_NO_CALL);
    NEED(leddwyfan_site_begin(&sites[1], &get).kind == LEDDWYFAN_BEGAN);
    struct leddwyfan_reply id = carry(1);
    NEED(id.kind == LEDDWYFAN_ID);
    struct leddwyfan_call attach = { .kind = LEDDWYFAN_ATTACH, .id = id.id };
    NEED(leddwyfan_site_begin(&sites[1], &attach).kind == LEDDWYFAN_BEGAN);
    struct leddwyfan_reply attached = carry(1);
    NEED(attached.kind == LEDDWYFAN_ATTACHED && attached.size == 100 && attached.has_attachment && !attached.read_only);
}

int main(void)
{
    empty_handles();
    for (uint32_t me = 0; me < 2; me++) {
        uint32_t made;
        for (long spared = 0;; spared++) {
            allowed = spared;
            made = leddwyfan_site_make(&sites[me], 2, me, 1, 0);
            allowed = -1;
            if (made != LEDDWYFAN_OUT_OF_MEMORY)
                break;
            NEED(spared < 100 && sites[me].at == NULL);
        }
        NEED(made == LEDDWYFAN_OK && leddwyfan_site_make(&sites[me], 2, me, 1, 0) == LEDDWYFAN_FULL);
    }
    fault_and_messages();
    segment_calls();
    NEED(leddwyfan_site_tick(&sites[0]).kind == LEDDWYFAN_TOOK && leddwyfan_site_restart(&sites[0]).kind == LEDDWYFAN_TOOK);
    leddwyfan_site_free(&sites[0]);
    leddwyfan_site_free(&sites[1]);
    NEED(sites[0].at == NULL);
    return 0;
}
