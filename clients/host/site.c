/* The site's process: what it is asked, and what it tells (docs/lines.md). All that asks it stands here.

   A page is mapped by `map`, which the site answers once it has the right, and given up by `unmap`, which says what programs changed; `sync`
   says that alone. While a page is mapped the site takes nothing that would leave it with less, and says `revoke` where something would.

   A site that is killed is started again from its journal, which has what is mapped. Unmaps and syncs without an answer are said again, in
   order. That does no harm: while the page is mapped nobody else has it, and once it is given up the site refuses. A map isn't said while an
   unmap of its page has no answer, or that, said again, would bring old bytes to a page that came later. */
#include "host.h"

#include <signal.h>
#include <stdarg.h>
#include <sys/stat.h>
#include <sys/wait.h>

/* A line has at most so many bytes, with its seal; and so many of runs, each of which has so many beside its base64. A site lets 64 asks wait, half
   of which faults keep for themselves. */
enum { LINE = 8192, RUNS = 8000, BESIDE = 16, MOST_MAPS_AHEAD = 32 };

static struct channel to_site = {.descriptor = -1}, from_site = {.descriptor = -1};
static struct channel unmaps; /* and syncs: their lines; those from `unanswered` on have no answer */
static size_t unanswered;
static uint64_t unmaps_said, unmaps_answered, unmaps_said_again; /* how many; and how many had been said when the site was killed last */
static char runs[LINE];                                          /* what changed of a page and isn't said yet */
static size_t runs_length;
static pid_t process;
static struct call *calls;
static uint64_t calls_made;
static int maps; /* without an answer */
static bool ticking, recovering; /* a tick has no answer yet; what is mapped hasn't been told since the site was started */

/* Says an ask, and gives its line, without its seal. */
__attribute__((format(printf, 1, 2))) static const char *say(const char *format, ...) {
    static char line[LINE];
    int length = snprintf(line, sizeof line, "ask %d ", options.me);
    va_list values;
    va_start(values, format);
    vsnprintf(line + length, sizeof line - (size_t)length, format, values);
    va_end(values);
    push_line(&to_site, line, true);
    return line;
}

/* Bytes in base64. */

static const char letters[] = "ABCDEFGHIJKLMNOPQRSTUVWXYZabcdefghijklmnopqrstuvwxyz0123456789+/";

/* Up to three bytes are four letters. */
static void encode_some(const uint8_t *bytes, size_t count, char *text) {
    uint32_t bits = (uint32_t)bytes[0] << 16 | (count > 1 ? (uint32_t)bytes[1] << 8 : 0) | (count > 2 ? bytes[2] : 0);
    text[0] = letters[bits >> 18];
    text[1] = letters[bits >> 12 & 63];
    text[2] = count > 1 ? letters[bits >> 6 & 63] : '=';
    text[3] = count > 2 ? letters[bits & 63] : '=';
}

static size_t encode(const uint8_t *bytes, size_t count, char *text) {
    const char *begin = text;
    for (; count >= 3; bytes += 3, count -= 3, text += 4) encode_some(bytes, 3, text);
    if (count > 0) encode_some(bytes, count, text), text += 4;
    *text = '\0';
    return (size_t)(text - begin);
}

static uint32_t bits_of(const uint8_t values[256], const char *text) {
    const uint8_t *letter = (const uint8_t *)text;
    return (uint32_t)values[letter[0]] << 18 | (uint32_t)values[letter[1]] << 12 | (uint32_t)values[letter[2]] << 6 | values[letter[3]];
}

bool decode(const char *text, uint8_t bytes[PAGE]) {
    static uint8_t values[256];
    size_t length = 0;
    for (uint8_t value = 0; values['/'] == 0 && value < 64; value++) values[(uint8_t)letters[value]] = value;
    if (strlen(text) < (PAGE + 2) / 3 * 4) return false;
    for (; length + 3 <= PAGE; length += 3, text += 4) {
        uint32_t bits = bits_of(values, text);
        bytes[length] = (uint8_t)(bits >> 16);
        bytes[length + 1] = (uint8_t)(bits >> 8);
        bytes[length + 2] = (uint8_t)bits;
    }
    for (int shift = 16; length < PAGE; shift -= 8) bytes[length++] = (uint8_t)(bits_of(values, text) >> shift);
    return true;
}

/* Pages. */

/* A map waits for earlier unmaps, and asks through one attachment at a time. Its tag says what is mapped: where nobody waits for the answer, as
   the segment has gone, the page is given up again. */
void ask_map(struct page *page) {
    const struct segment *segment = page->segment;
    int at = segment->writing >= 0 ? segment->writing : segment->reading;
    size_t index = page->offset / PAGE;
    if (page->at != at) page_leaves(page);
    if (recovering || is_unmapping(page)) return;
    page->asked = page->wanted;
    page->at = at;
    maps++;
    say("m.%d.%zu map %d %zu %s", at, index, at, index, page->wanted == WRITE ? "write" : "read");
}

bool may_read_ahead(void) {
    return maps < MOST_MAPS_AHEAD;
}

static void map_answered(const char *tag, const char *text) {
    int at = 0, index = 0;
    maps--;
    sscanf(tag, "m.%d.%d", &at, &index);
    struct page *page = page_of(-1, at, index);
    if (page != NULL && page->asked != NONE) page_told(page, text);
    else if (strncmp(text, "mapped", 6) == 0) say("x unmap %d %d none", at, index);
}

/* Bytes of a page that changed, to be said with the next unmap. What is too much for one line is said by syncs before it. */
void add_run(struct page *page, size_t start, size_t end) {
    if (runs_length + BESIDE + (end - start) / 3 * 4 > RUNS) say_unmap(page, WRITE);
    runs_length += (size_t)sprintf(runs + runs_length, " %zu ", page->offset + start);
    runs_length += encode(page->segment->bytes + page->offset + start, end - start, runs + runs_length);
}

/* Where all stays mapped, it is a sync. */
void say_unmap(struct page *page, enum right keeps) {
    static const char *const verbs[] = {"unmap", "unmap", "sync"}, *const kept[] = {" none", " read", ""};
    push_line(&unmaps, say("u %s %d %zu%s%s", verbs[keeps], page->at, page->offset / PAGE, kept[keeps], runs), true);
    page->unmap = ++unmaps_said;
    runs[runs_length = 0] = '\0';
}

bool is_unmapping(const struct page *page) {
    return page->unmap > unmaps_answered;
}

static void unmap_answered(const char *text) {
    if (++unmaps_answered > unmaps_said_again && strncmp(text, "refused", 7) == 0) warnx("a page wasn't given up: %s", text);
    unanswered = (size_t)((char *)memchr(unmaps.bytes + unanswered, '\n', unmaps.length - unanswered) + 1 - unmaps.bytes);
    if (2 * unanswered >= unmaps.length) take_off(&unmaps, unanswered), unanswered = 0;
}

static void revoke_told(const char *text) {
    int id = -1, index = -1;
    char keeps[8] = "";
    sscanf(text, "revoke %d %d %7s", &id, &index, keeps);
    struct page *page = page_of(id, -1, index);
    if (page != NULL) page_revoked(page, strcmp(keeps, "read") == 0 ? READ : NONE);
}

/* What the site has mapped beyond what is here is given up: its answer was lost, or it is of an earlier daemon. */
static void mappings_told(const char *text) {
    int at, index, length;
    char kind[8];
    recovering = false;
    for (text += strlen("mappings"); sscanf(text, " %d %d %7s%n", &at, &index, kind, &length) == 3; text += length) {
        const struct page *page = page_of(-1, at, index);
        enum right here = page == NULL ? NONE : page->mapped;
        if (here < (strcmp(kind, "write") == 0 ? WRITE : READ)) say("x unmap %d %d %s", at, index, here == READ ? "read" : "none");
    }
}

/* Segment calls. */

static void say_call(void) {
    if (calls == NULL || calls->said) return;
    calls->said = true;
    say("c.%lu %s", calls->number, calls->text);
}

void make_call(struct call *call, void (*done)(struct call *, int, const char *), const char *format, ...) {
    struct call **last = &calls;
    va_list values;
    va_start(values, format);
    vsnprintf(call->text, sizeof call->text, format, values);
    va_end(values);
    call->done = done;
    call->said = false;
    call->number = ++calls_made;
    call->next = NULL;
    while (*last != NULL) last = &(*last)->next;
    *last = call;
    say_call();
}

static void end_call(int error, const char *reply) {
    struct call *call = calls;
    calls = call->next;
    if (call->done != NULL) call->done(call, error, reply);
    else free(call);
    say_call();
}

/* The errno of a refusal (docs/refusals.md), or 0. */
static int error_of(const char *reply) {
    static const int errors[] = {0,     EACCES, EEXIST, EIDRM,  EINVAL, ENOENT, ENOSPC,
                                 EPERM, EBUSY,  EINVAL, EACCES, EFAULT, EMFILE, EOVERFLOW};
    size_t number = 0;
    if (sscanf(reply, "refused %zu", &number) != 1 && sscanf(reply, "error %zu", &number) != 1) return 0;
    return number < sizeof errors / sizeof *errors ? errors[number] : EIO;
}

/* `refused 8`: one of before is still under way, or a page isn't given up yet; a tick says this one again. */
static void call_answered(const char *tag, const char *text) {
    int skipped = 0;
    if (calls == NULL || calls->number != strtoull(tag + 2, NULL, 10)) return;
    sscanf(text, "replied %*s %n", &skipped);
    if (strcmp(text, "refused 8") == 0) calls->said = false;
    else end_call(error_of(text + skipped), text + skipped);
}

bool is_to_call(const char *text) {
    for (const struct call *call = calls; call != NULL; call = call->next) {
        if (strcmp(call->text, text) == 0) return true;
    }
    return false;
}

bool site_waits(void) {
    return calls != NULL;
}

/* One tick at a time: a site that has none of the processor isn't given more to do. */
void site_tick(void) {
    if (!ticking) say("t tick");
    ticking = true;
    say_call();
}

/* Lines. */

static void take_answer(char *line) {
    size_t length = strlen(line), seal = seal_length(&options.seal);
    line[length < seal ? 0 : length - seal] = '\0';
    char *tag = strchr(line + 5, ' '), *text = tag == NULL ? NULL : strchr(tag + 1, ' ');
    if (text == NULL) return;
    *text++ = '\0';
    switch (*++tag) {
    case 'm': map_answered(tag, text); break;
    case 'u': unmap_answered(text); break;
    case '*': revoke_told(text); break;
    case 'l': mappings_told(text); break;
    case 'c': call_answered(tag, text); break;
    case 't': ticking = false;
    }
}

/* Envelopes for this site pass as they are, with their seal. Asks of others don't: they could give up what is mapped here. */
bool pass_line(const char *line) {
    int to;
    bool is_ours = sscanf(line, "env %*s %d", &to) == 1 && to == options.me;
    if (is_ours && to_site.length < MOST_UNWRITTEN) push_line(&to_site, line, false);
    return is_ours;
}

static void take_site_line(char *line) {
    if (strncmp(line, "tell ", 5) == 0) take_answer(line);
    else if (!pass_line(line)) carry(line);
}

/* The process. */

/* Nobody knows whether the call that was outstanding is executed: what made a segment has failed, and all else may be made again. */
static void start_again(void) {
    int status = 0;
    struct stat journal;
    close(to_site.descriptor);
    close(from_site.descriptor);
    while (waitpid(process, &status, 0) < 0 && errno == EINTR) {} /* the daemon is told to end meanwhile: it does so in order */
    to_site.length = from_site.length = 0;
    if (WIFEXITED(status)) errx(1, "the site's process has ended, status %d", WEXITSTATUS(status));
    if (options.journal == NULL) errx(1, "the site's process was killed, and has no journal: stop all hosts, and begin anew");
    warnx("the site's process was killed: it goes on from its journal; %lu unmaps have no answer", unmaps_said - unmaps_answered);
    if (stat(options.journal, &journal) == 0 && journal.st_size > 0) options.begins = false;
    site_start();
    EACH_PAGE(page) page->asked = NONE, page->later = false;
    ticking = false;
    if (calls != NULL && calls->said && calls->makes) {
        end_call(EIO, "");
    } else if (calls != NULL) {
        calls->again = calls->again || calls->said;
        calls->said = false;
    }
    site_tick();
}

static void site_ready(struct source *source) {
    (void)source;
    if (!read_lines(&from_site, take_site_line)) start_again();
}

void site_start(void) {
    static struct source source = {site_ready};
    char sites[12], me[12];
    snprintf(sites, sizeof sites, "%d", options.sites);
    snprintf(me, sizeof me, "%d", options.me);
    const char *words[16] = {options.program, "site", "--sites", sites, "--me", me, "--preset", "1"};
    size_t count = 8;
    if (options.journal != NULL) words[count++] = "--journal", words[count++] = options.journal;
    if (options.begins) words[count++] = "--new";
    if (options.cluster != NULL) words[count++] = "--cluster", words[count++] = options.cluster;
    if (options.key != NULL) words[count++] = "--key", words[count++] = options.key;
    process = start_process((char *const *)(uintptr_t)words, &to_site, &from_site);
    watch(from_site.descriptor, &source);
    push_bytes(&to_site, unmaps.bytes + unanswered, unmaps.length - unanswered);
    unmaps_said_again = unmaps_said;
    maps = 0;
    recovering = true;
    say("l mappings");
}

bool site_flush(void) {
    write_lines(&to_site);
    return to_site.length == 0;
}

/* Lets the site make what it was told, and ends it. */
void site_end(void) {
    int64_t until = now() + 5 * SECOND;
    while (!site_flush() && now() < until) usleep(100);
    close(to_site.descriptor);
    while (read_lines(&from_site, take_site_line) && now() < until) usleep(100);
    kill(process, SIGTERM);
    waitpid(process, NULL, 0);
}
