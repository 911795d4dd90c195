#include "leddwyfan.h"
#include "seal.h"

#include <errno.h>
#include <fcntl.h>
#include <inttypes.h>
#include <limits.h>
#include <poll.h>
#include <pthread.h>
#include <signal.h>
#include <spawn.h>
#include <stdarg.h>
#include <stdio.h>
#include <stdlib.h>
#include <string.h>
#include <sys/wait.h>
#include <time.h>
#include <unistd.h>

extern char **environ;

enum {
    PAGE = LEDDWYFAN_PAGE_BYTES,
    MOST_SITES = 16,
    SPIN = 2,           /* milliseconds between two looks at a flag */
    TICK = 50,          /* milliseconds, while something waits here or others say something */
    IDLE_TICK = 1000,   /* milliseconds, else */
    STOP = 5000,        /* milliseconds until a process that doesn't end is told to, by SIGTERM and then by SIGKILL */
    RESTARTS = 16,      /* how often the process is started again at most */
    QUESTION_BYTES = 80, /* of a segment call */
    LETTERS = (PAGE + 2) / 3 * 4, /* of a page's base64 */
    ASK_BYTES = 128 + LETTERS,
    ANSWER_BYTES = 192,
    BLOCK_ANSWER_BYTES = 6 + LETTERS + 1, /* `block `, the base64 of a page, and the end */
    READ_BYTES = 1 << 16,
    MOST_UNWRITTEN = 1 << 22,
    NO_ATTACHMENT = 64, /* attachments are below it */
};

/* Bytes, which grow. */
struct bytes {
    char *start;
    size_t length, capacity;
};

/* Lines from a descriptor, or to one. */
struct channel {
    int descriptor;
    struct bytes bytes;
};

struct ask {
    char line[ASK_BYTES];
    char *answer;
};

/* Asks that one caller made together, and room for their answers. One that begins a segment call must not be said twice; it is doubtful
   when its site was started again since, so that nobody knows whether it began. */
struct batch {
    struct batch *next;
    uint64_t number;
    size_t count, missing, answer_bytes;
    bool begins, doubtful;
    struct ask *asks;
    char *answers;
};

/* A lock over sites that a thread of this one has or wants. */
struct claim {
    struct claim *next;
    int at;
    size_t offset;
};

struct leddwyfan {
    pthread_mutex_t lock;  /* of all that stands below `thread` */
    pthread_mutex_t calls; /* a site has one segment call at a time */
    pthread_cond_t changed;
    pthread_t thread;
    char **words; /* of the process, all copied: it may be started again */
    char **begin; /* the last of them, which begins the journal, or NULL */
    char numbers[3][12];
    struct seal seal;
    unsigned sites, me, timeout, restarts;
    uint32_t uid, gid;
    pid_t owner; /* the process that started the site */
    sigset_t signals; /* of the process */
    pid_t process;
    struct channel from_stream, to_stream, from_site, to_site;
    int wake_reader, wake_writer;
    char name[8];
    uint64_t batches_made;
    struct batch *batches;
    struct claim *claims;
    int64_t last_tick, last_heard;
    bool heard; /* something came for this site since its last tick */
    int fault; /* 0, or the errno with which all calls fail */
    bool stopping;
};

static int failed(int number) {
    errno = number;
    return -1;
}

/* The system's error for a refusal of docs/refusals.md. */
static int refused(long number) {
    static const int errors[] = {0,      EACCES, EEXIST, EIDRM,  EINVAL, ENOENT, ENOSPC,
                                 EPERM,  EBUSY,  EINVAL, EACCES, EFAULT, EMFILE, EOVERFLOW};
    if (number < 1 || number >= (long)(sizeof errors / sizeof *errors)) return failed(EIO);
    return failed(errors[number]);
}

static int64_t now(void) {
    struct timespec time;
    clock_gettime(CLOCK_MONOTONIC, &time);
    return (int64_t)time.tv_sec * 1000 + time.tv_nsec / 1000000;
}

static void pause_for(int milliseconds) {
    struct timespec time = {milliseconds / 1000, (milliseconds % 1000) * 1000000L};
    nanosleep(&time, NULL);
}

/* Lines on their way. Without memory the whole site fails. */

static void fail(struct leddwyfan *site, int number) {
    if (site->fault == 0) site->fault = number;
    pthread_cond_broadcast(&site->changed);
}

static bool reserve(struct bytes *bytes, size_t more) {
    if (bytes->capacity - bytes->length >= more) return true;
    size_t capacity = 2 * bytes->capacity + more;
    char *start = realloc(bytes->start, capacity);
    if (start == NULL) return false;
    bytes->start = start;
    bytes->capacity = capacity;
    return true;
}

static void take_off(struct bytes *bytes, size_t count) {
    bytes->length -= count;
    memmove(bytes->start, bytes->start + count, bytes->length);
}

/* Appends a line and its line feed. */
static void push(struct leddwyfan *site, struct channel *channel, const char *line, size_t length) {
    struct bytes *bytes = &channel->bytes;
    if (!reserve(bytes, length + 1)) {
        fail(site, ENOMEM);
        return;
    }
    memcpy(bytes->start + bytes->length, line, length);
    bytes->start[bytes->length + length] = '\n';
    bytes->length += length + 1;
}

/* The same of an ask of this library, which is sealed. */
static void push_ask(struct leddwyfan *site, const char *line, size_t length) {
    char sealed[ASK_BYTES + SEAL_BYTES];
    memcpy(sealed, line, length);
    push(site, &site->to_site, sealed, length + seal_append(&site->seal, sealed, length));
}

/* The same of a line that a carrier may lose: where too much is on its way already, this one is lost. */
static void push_if_room(struct leddwyfan *site, struct channel *channel, const char *line, size_t length) {
    if (channel->bytes.length < MOST_UNWRITTEN) push(site, channel, line, length);
}

static void say_to_site(struct leddwyfan *site, const char *format, ...) {
    char line[ASK_BYTES];
    va_list values;
    va_start(values, format);
    int length = vsnprintf(line, sizeof line, format, values);
    va_end(values);
    push_ask(site, line, (size_t)length);
}

static void wake(struct leddwyfan *site) {
    /* Where this pipe is full the thread is awake. */
    while (write(site->wake_writer, ".", 1) < 0 && errno == EINTR) continue;
}

/* Answers. */

static void answer(struct leddwyfan *site, struct batch *batch, size_t place, const char *words, size_t length) {
    struct ask *ask = &batch->asks[place];
    if (ask->answer[0] != '\0' || length == 0 || length >= batch->answer_bytes) return;
    memcpy(ask->answer, words, length);
    ask->answer[length] = '\0';
    if (--batch->missing == 0) pthread_cond_broadcast(&site->changed);
}

/* Whether the site has no segment call outstanding: then no doubtful one will be answered. */
static void hear_probe(struct leddwyfan *site, const char *words, size_t length) {
    if (length != 9 || memcmp(words, "refused 9", 9) != 0) return;
    for (struct batch *batch = site->batches; batch != NULL; batch = batch->next) {
        if (batch->doubtful) answer(site, batch, 0, "unknown", 7);
    }
}

/* `TAG WORDS`. True where the tag is of this library: NAME.BATCH.PLACE, NAME.tick or NAME.probe. */
static bool hear(struct leddwyfan *site, const char *text, size_t length) {
    size_t name = strlen(site->name);
    const char *blank = memchr(text, ' ', length);
    if (blank == NULL || length <= name || memcmp(text, site->name, name) != 0 || text[name] != '.') return false;
    const char *words = blank + 1;
    size_t words_length = length - (size_t)(words - text);
    if (text[name + 1] == 'p') hear_probe(site, words, words_length);
    char *end;
    uint64_t number = strtoull(text + name + 1, &end, 10);
    if (*end != '.') return true;
    size_t place = strtoul(end + 1, NULL, 10);
    for (struct batch *batch = site->batches; batch != NULL; batch = batch->next) {
        if (batch->number == number && place < batch->count) answer(site, batch, place, words, words_length);
    }
    return true;
}

/* The process. */

/* Whether the process ends within so many milliseconds. What it still writes is passed over. */
static bool ends_within(struct leddwyfan *site, int *status, int milliseconds) {
    char rest[4096];
    for (int waited = 0; waited <= milliseconds; waited += 10) {
        while (read(site->from_site.descriptor, rest, sizeof rest) > 0) continue;
        if (waitpid(site->process, status, WNOHANG) != 0) return true;
        pause_for(10);
    }
    return false;
}

/* Ends the process's input, and answers its status. */
static int end_process(struct leddwyfan *site) {
    static const int signals[] = {0, SIGTERM, SIGKILL};
    int status = 0;
    close(site->to_site.descriptor);
    site->to_site.bytes.length = 0;
    for (int signal = 0; signal < 3; signal++) {
        kill(site->process, signals[signal]);
        if (ends_within(site, &status, STOP)) break;
    }
    close(site->from_site.descriptor);
    site->from_site.bytes.length = 0;
    return status;
}

/* A pipe whose ends no other process gets. */
static int make_pipe(int ends[2]) {
    if (pipe(ends) < 0) return -1;
    fcntl(ends[0], F_SETFD, FD_CLOEXEC);
    fcntl(ends[1], F_SETFD, FD_CLOEXEC);
    return 0;
}

static void close_pipe(int ends[2]) {
    int number = errno;
    close(ends[0]);
    close(ends[1]);
    errno = number;
}

static int set_not_to_block(int descriptor) {
    int flags = fcntl(descriptor, F_GETFL);
    return flags < 0 ? -1 : fcntl(descriptor, F_SETFL, flags | O_NONBLOCK);
}

static int spawn(struct leddwyfan *site, int input, int output) {
    posix_spawn_file_actions_t actions;
    posix_spawnattr_t attributes;
    posix_spawn_file_actions_init(&actions);
    posix_spawn_file_actions_adddup2(&actions, input, 0);
    posix_spawn_file_actions_adddup2(&actions, output, 1);
    int reader = site->from_stream.descriptor, writer = site->to_stream.descriptor;
    if (reader > 2) posix_spawn_file_actions_addclose(&actions, reader);
    if (writer > 2 && writer != reader) posix_spawn_file_actions_addclose(&actions, writer);
    posix_spawnattr_init(&attributes);
    posix_spawnattr_setsigmask(&attributes, &site->signals);
    posix_spawnattr_setflags(&attributes, POSIX_SPAWN_SETSIGMASK);
    int fault = posix_spawnp(&site->process, site->words[0], &actions, &attributes, site->words, environ);
    posix_spawnattr_destroy(&attributes);
    posix_spawn_file_actions_destroy(&actions);
    return fault == 0 ? 0 : failed(fault);
}

static int start_process(struct leddwyfan *site) {
    int into[2], out_of[2];
    if (make_pipe(into) < 0) return -1;
    if (make_pipe(out_of) < 0) {
        close_pipe(into);
        return -1;
    }
    if (set_not_to_block(into[1]) < 0 || set_not_to_block(out_of[0]) < 0 || spawn(site, into[0], out_of[1]) < 0) {
        close_pipe(into);
        close_pipe(out_of);
        return -1;
    }
    close(into[0]);
    close(out_of[1]);
    site->to_site.descriptor = into[1];
    site->from_site.descriptor = out_of[0];
    return 0;
}

/* Where a call is doubtful, asks for a detach that no site can make. While a call is outstanding it is refused for that (8), else as there is
   no such attachment (9); neither changes anything. */
static void probe(struct leddwyfan *site) {
    for (struct batch *batch = site->batches; batch != NULL; batch = batch->next) {
        if (batch->doubtful) say_to_site(site, "ask %u %s.probe detach %d", site->me, site->name, NO_ATTACHMENT);
    }
}

static void ask_again(struct leddwyfan *site) {
    for (struct batch *batch = site->batches; batch != NULL; batch = batch->next) {
        batch->doubtful = batch->begins;
        for (size_t place = 0; place < batch->count && !batch->begins; place++) {
            struct ask *ask = &batch->asks[place];
            if (ask->answer[0] == '\0') push_ask(site, ask->line, strlen(ask->line));
        }
    }
    probe(site);
}

/* The journal is begun by now, unless the site was killed before it had written the first batch: a line and its mark. */
static void begin_no_more(struct leddwyfan *site) {
    char lines[256];
    if (site->begin == NULL) return;
    int journal = open(site->begin[-1], O_RDONLY | O_CLOEXEC);
    ssize_t length = journal < 0 ? 0 : read(journal, lines, sizeof lines);
    if (journal >= 0) close(journal);
    const char *end = length <= 0 ? NULL : memchr(lines, '\n', (size_t)length);
    if (end == NULL || memchr(end + 1, '\n', (size_t)(lines + length - end - 1)) == NULL) return;
    free(*site->begin);
    *site->begin = NULL;
    site->begin = NULL;
}

/* The process has ended. If a signal ended it and there is a journal it is started again. It made durable what it answered, and forgot the
   accesses and blocks that waited: these are asked again. */
static void start_again(struct leddwyfan *site) {
    int status = end_process(site);
    site->process = 0;
    begin_no_more(site);
    if (!WIFSIGNALED(status) || site->restarts == 0 || start_process(site) < 0) {
        site->process = 0;
        fail(site, EIO);
        return;
    }
    site->restarts--;
    ask_again(site);
}

/* The thread that carries. It holds the lock, but while it waits. */

/* The word of so many bytes behind the first blanks of a line, or NULL. */
static const char *word(const char *line, size_t length, int blanks, size_t *word_length) {
    const char *start = line, *end = line + length;
    for (; blanks > 0; blanks--) {
        const char *blank = memchr(start, ' ', (size_t)(end - start));
        if (blank == NULL) return NULL;
        start = blank + 1;
    }
    const char *blank = memchr(start, ' ', (size_t)(end - start));
    *word_length = (size_t)((blank == NULL ? end : blank) - start);
    return start;
}

static bool word_is(const char *line, size_t length, int blanks, const char *expected) {
    size_t word_length;
    const char *found = word(line, length, blanks, &word_length);
    return found != NULL && word_length == strlen(expected) && memcmp(found, expected, word_length) == 0;
}

static void take_stream_line(struct leddwyfan *site, const char *line, size_t length) {
    const char *me = site->numbers[1];
    bool envelope = word_is(line, length, 0, "env") && word_is(line, length, 2, me);
    bool ask = word_is(line, length, 0, "ask") && word_is(line, length, 1, me);
    if (!envelope && !ask) return;
    push_if_room(site, &site->to_site, line, length);
    site->heard = true;
    site->last_heard = now();
}

static void take_site_line(struct leddwyfan *site, const char *line, size_t length) {
    if (word_is(line, length, 0, "env") && word_is(line, length, 2, site->numbers[1])) {
        push_if_room(site, &site->to_site, line, length);
        return;
    }
    size_t tag_length;
    const char *tag = word_is(line, length, 0, "tell") ? word(line, length, 2, &tag_length) : NULL;
    size_t front = length - seal_length(&site->seal);
    if (tag != NULL && hear(site, tag, front - (size_t)(tag - line))) return;
    push_if_room(site, &site->to_stream, line, length);
}

/* Takes the whole lines that have come. Of a line without an end the front is kept. */
static void take_lines(struct leddwyfan *site, struct channel *channel, void (*take)(struct leddwyfan *, const char *, size_t)) {
    struct bytes *bytes = &channel->bytes;
    size_t start = 0;
    char *feed;
    while ((feed = memchr(bytes->start + start, '\n', bytes->length - start)) != NULL) {
        size_t end = (size_t)(feed - bytes->start);
        *feed = '\0';
        take(site, bytes->start + start, end - start);
        start = end + 1;
    }
    take_off(bytes, start);
    if (bytes->length > READ_BYTES) bytes->length = READ_BYTES;
}

/* False at the end. */
static bool read_more(struct leddwyfan *site, struct channel *channel) {
    struct bytes *bytes = &channel->bytes;
    if (!reserve(bytes, READ_BYTES)) {
        fail(site, ENOMEM);
        return true;
    }
    ssize_t count = read(channel->descriptor, bytes->start + bytes->length, READ_BYTES);
    if (count > 0) bytes->length += (size_t)count;
    return count > 0 || (count < 0 && (errno == EAGAIN || errno == EINTR));
}

/* Writes what the descriptor takes. False: nobody reads it any more. */
static bool write_more(struct channel *channel) {
    struct bytes *bytes = &channel->bytes;
    if (bytes->length == 0) return true;
    ssize_t count = write(channel->descriptor, bytes->start, bytes->length);
    if (count > 0) take_off(bytes, (size_t)count);
    if (count >= 0 || errno == EAGAIN || errno == EINTR) return true;
    bytes->length = 0;
    return false;
}

/* When the next tick is due. Others wait for what this site sends, too: it is ticked often while they say something. */
static int64_t next_tick(const struct leddwyfan *site) {
    return site->last_tick + (site->batches != NULL || site->heard ? TICK : IDLE_TICK);
}

/* A tick sends again what was lost. */
static void tick_if_due(struct leddwyfan *site) {
    if (now() < next_tick(site)) return;
    site->last_tick = now();
    site->heard = false;
    say_to_site(site, "ask %u %s.tick tick", site->me, site->name);
    probe(site);
}

enum { WAKE, FROM_STREAM, FROM_SITE, TO_STREAM, TO_SITE, CHANNELS };

/* Waits until a descriptor can be read, or written where there is something to write, or the next tick is due. */
static void wait_ready(struct leddwyfan *site, struct pollfd ready[CHANNELS]) {
    struct channel *to_stream = &site->to_stream, *to_site = &site->to_site;
    ready[WAKE] = (struct pollfd){site->wake_reader, POLLIN, 0};
    ready[FROM_STREAM] = (struct pollfd){site->from_stream.descriptor, POLLIN, 0};
    ready[FROM_SITE] = (struct pollfd){site->from_site.descriptor, POLLIN, 0};
    ready[TO_STREAM] = (struct pollfd){to_stream->bytes.length > 0 ? to_stream->descriptor : -1, POLLOUT, 0};
    ready[TO_SITE] = (struct pollfd){to_site->bytes.length > 0 ? to_site->descriptor : -1, POLLOUT, 0};
    int64_t due = next_tick(site) - now();
    pthread_mutex_unlock(&site->lock);
    poll(ready, CHANNELS, due > 0 ? (int)due : 0);
    pthread_mutex_lock(&site->lock);
}

static void take_ready(struct leddwyfan *site, const struct pollfd ready[CHANNELS]) {
    char wakes[256];
    if (ready[WAKE].revents != 0 && read(site->wake_reader, wakes, sizeof wakes) < 0 && errno != EAGAIN && errno != EINTR) fail(site, errno);
    if (ready[FROM_SITE].revents != 0) {
        bool more = read_more(site, &site->from_site);
        take_lines(site, &site->from_site, take_site_line);
        if (!more) start_again(site);
    }
    if (ready[FROM_STREAM].revents != 0) {
        bool more = read_more(site, &site->from_stream);
        take_lines(site, &site->from_stream, take_stream_line);
        if (!more) fail(site, EPIPE);
    }
    tick_if_due(site);
    if (site->fault != 0) return;
    if (!write_more(&site->to_stream)) fail(site, EPIPE);
    /* That the process has ended is told by the end of what it writes. */
    write_more(&site->to_site);
}

static void *carry(void *argument) {
    struct leddwyfan *site = argument;
    struct pollfd ready[CHANNELS];
    pthread_mutex_lock(&site->lock);
    while (!site->stopping && site->fault == 0) {
        wait_ready(site, ready);
        if (!site->stopping) take_ready(site, ready);
    }
    pthread_mutex_unlock(&site->lock);
    return NULL;
}

/* Asks. */

static void free_batch(struct batch *batch) {
    int number = errno;
    free(batch->answers);
    free(batch->asks);
    free(batch);
    errno = number;
}

static struct batch *new_batch(size_t count, size_t answer_bytes, bool begins) {
    struct batch *batch = calloc(1, sizeof *batch);
    if (batch == NULL) return NULL;
    *batch = (struct batch){.count = count, .missing = count, .answer_bytes = answer_bytes, .begins = begins};
    batch->asks = calloc(count, sizeof *batch->asks);
    if (batch->asks != NULL) batch->answers = calloc(count, answer_bytes);
    if (batch->answers == NULL) {
        free_batch(batch);
        return NULL;
    }
    for (size_t place = 0; place < count; place++) batch->asks[place].answer = batch->answers + place * answer_bytes;
    return batch;
}

/* Puts the batch among those that wait, and says its asks, each of which has its question in its line. */
static void say_batch(struct leddwyfan *site, struct batch *batch) {
    batch->number = ++site->batches_made;
    batch->next = site->batches;
    site->batches = batch;
    for (size_t place = 0; place < batch->count; place++) {
        char line[ASK_BYTES + 64];
        struct ask *ask = &batch->asks[place];
        snprintf(line, sizeof line, "ask %u %s.%" PRIu64 ".%zu %s", site->me, site->name, batch->number, place, ask->line);
        memcpy(ask->line, line, ASK_BYTES - 1);
        push_ask(site, ask->line, strlen(ask->line));
    }
    wake(site);
}

static void take_off_batch(struct leddwyfan *site, struct batch *batch) {
    struct batch **link = &site->batches;
    while (*link != batch) link = &(*link)->next;
    *link = batch->next;
}

static void wait_for_change(struct leddwyfan *site) {
    struct timespec until;
    clock_gettime(CLOCK_MONOTONIC, &until);
    until.tv_nsec += TICK * 1000000L;
    until.tv_sec += until.tv_nsec / 1000000000L;
    until.tv_nsec %= 1000000000L;
    if (pthread_cond_timedwait(&site->changed, &site->lock, &until) == ETIMEDOUT) {
        tick_if_due(site);
        wake(site);
    }
}

/* Why a call of this deadline waits no longer, or 0. */
static int fault_at(const struct leddwyfan *site, int64_t deadline) {
    if (site->fault != 0) return site->fault;
    return deadline != 0 && now() >= deadline ? ETIMEDOUT : 0;
}

/* Fails in a process that was forked since the start: neither the thread that carries nor the site's process is its own. */
static int check_owner(const struct leddwyfan *site) {
    return getpid() == site->owner ? 0 : failed(ECHILD);
}

/* Asks all of these at once, and waits for their answers. The site is ticked while they wait. */
static int exchange(struct leddwyfan *site, struct batch *batch, int64_t deadline) {
    if (check_owner(site) < 0) return -1;
    pthread_mutex_lock(&site->lock);
    int fault = fault_at(site, deadline);
    if (fault == 0) {
        say_batch(site, batch);
        while (batch->missing > 0 && (fault = fault_at(site, deadline)) == 0) wait_for_change(site);
        take_off_batch(site, batch);
    }
    pthread_mutex_unlock(&site->lock);
    return batch->missing == 0 ? 0 : failed(fault);
}

static int64_t deadline_of(const struct leddwyfan *site) {
    return site->timeout == 0 ? 0 : now() + 1000 * (int64_t)site->timeout;
}

/* Segment calls. */

/* Makes a segment call, and gives what stands behind `replied CALL ` in its reply. A site has one at a time: where another caller's isn't
   replied to yet, this one didn't begin, and is asked again. */
static int ask_call(struct leddwyfan *site, const char *question, char reply[ANSWER_BYTES]) {
    int64_t deadline = deadline_of(site);
    for (;;) {
        struct batch *batch = new_batch(1, ANSWER_BYTES, true);
        if (batch == NULL) return -1;
        memcpy(batch->asks[0].line, question, strlen(question));
        int result = exchange(site, batch, deadline);
        memcpy(reply, batch->asks[0].answer, ANSWER_BYTES);
        free_batch(batch);
        if (result < 0 || strcmp(reply, "refused 8") != 0) return result;
        pause_for(TICK);
    }
}

/* The same, and a reply that is an error is told by errno. */
static int call(struct leddwyfan *site, char reply[ANSWER_BYTES], const char *format, ...) {
    char question[QUESTION_BYTES];
    va_list values;
    va_start(values, format);
    vsnprintf(question, sizeof question, format, values);
    va_end(values);
    if (check_owner(site) < 0) return -1;
    pthread_mutex_lock(&site->calls);
    int result = ask_call(site, question, reply);
    pthread_mutex_unlock(&site->calls);
    long number;
    if (result < 0) return -1;
    if (strcmp(reply, "unknown") == 0) return failed(EIO);
    if (sscanf(reply, "refused %ld", &number) == 1 || sscanf(reply, "replied %*s error %ld", &number) == 1) return refused(number);
    return 0;
}

int shm_get(struct leddwyfan *site, uint32_t key, size_t size, int flags) {
    char reply[ANSWER_BYTES];
    bool create = (flags & IPC_CREAT) != 0, alone = (flags & IPC_EXCL) != 0;
    const char *letters = create && alone ? "cx" : create ? "c" : alone ? "x" : "-";
    if (size > UINT32_MAX) return failed(EINVAL);
    if (call(site, reply, "get %u %u %u %zu %03o %s", site->uid, site->gid, key, size, (unsigned)flags & 0777, letters) < 0) return -1;
    int shmid;
    return sscanf(reply, "replied %*s id %d", &shmid) == 1 ? shmid : failed(EIO);
}

int shm_at(struct leddwyfan *site, int shmid, int flags) {
    char reply[ANSWER_BYTES];
    if (shmid < 0) return failed(EINVAL);
    if (call(site, reply, "attach %u %u %d %s", site->uid, site->gid, shmid, flags & SHM_RDONLY ? "ro" : "rw") < 0) return -1;
    int at;
    return sscanf(reply, "replied %*s attached %d", &at) == 1 ? at : failed(EIO);
}

int shm_dt(struct leddwyfan *site, int at) {
    char reply[ANSWER_BYTES];
    return at < 0 ? failed(EINVAL) : call(site, reply, "detach %d", at);
}

static int read_status(const char *reply, struct leddwyfan_status *status) {
    char state[8];
    int count = sscanf(reply,
                       "replied %*s stat key %" SCNu32 " uid %" SCNu32 " gid %" SCNu32 " cuid %" SCNu32 " cgid %" SCNu32
                       " mode %o size %zu nattch %" SCNu64 " %7s",
                       &status->key, &status->uid, &status->gid, &status->cuid, &status->cgid, &status->mode, &status->size,
                       &status->attachments, state);
    if (count != 9) return failed(EIO);
    status->marked = strcmp(state, "marked") == 0;
    return 0;
}

int shm_ctl(struct leddwyfan *site, int shmid, int command, struct leddwyfan_status *status) {
    char reply[ANSWER_BYTES];
    unsigned uid = site->uid, gid = site->gid;
    if (shmid < 0 || (status == NULL && command != IPC_RMID)) return failed(EINVAL);
    switch (command) {
    case IPC_STAT:
        return call(site, reply, "stat %u %u %d", uid, gid, shmid) < 0 ? -1 : read_status(reply, status);
    case IPC_SET:
        return call(site, reply, "set %u %u %d %u %u %03o", uid, gid, shmid, status->uid, status->gid, status->mode & 0777);
    case IPC_RMID:
        return call(site, reply, "remove %u %u %d", uid, gid, shmid);
    default:
        return failed(EINVAL);
    }
}

/* Loads and stores. */

/* Some bytes of one page. `from` is NULL where they are read, and `into` where they are stored. */
struct piece {
    int at;
    size_t offset, length;
    const unsigned char *from;
    unsigned char *into;
};

static const char base64_letters[] = "ABCDEFGHIJKLMNOPQRSTUVWXYZabcdefghijklmnopqrstuvwxyz0123456789+/";

/* The six bits that a letter of base64 says, or -1. */
static int bits_of(char letter) {
    const char *found = letter == '\0' ? NULL : strchr(base64_letters, letter);
    return found == NULL ? -1 : (int)(found - base64_letters);
}

/* Whether the text is the base64 of so many bytes, which are then put there; where it isn't, some may be. */
static bool decode(const char *text, unsigned char *into, size_t length) {
    if (strlen(text) != (length + 2) / 3 * 4) return false;
    for (; length > 0; text += 4) {
        size_t count = length < 3 ? length : 3;
        uint32_t bits = 0;
        for (size_t place = 0; place < 4; place++) {
            int more = place <= count ? bits_of(text[place]) : text[place] == '=' ? 0 : -1;
            if (more < 0) return false;
            bits = bits << 6 | (uint32_t)more;
        }
        if ((bits & (0xffffffu >> 8 * count)) != 0) return false;
        for (size_t place = 0; place < count; place++) *into++ = (unsigned char)(bits >> (16 - 8 * place));
        length -= count;
    }
    return true;
}

/* Puts there the base64 of so many bytes, and an end. */
static void encode(const unsigned char *from, size_t length, char *into) {
    for (; length > 0; into += 4) {
        size_t count = length < 3 ? length : 3;
        uint32_t bits = 0;
        for (size_t place = 0; place < 3; place++) bits = bits << 8 | (place < count ? from[place] : 0);
        for (size_t place = 0; place < 4; place++) into[place] = place <= count ? base64_letters[bits >> (18 - 6 * place) & 63] : '=';
        from += count;
        length -= count;
    }
    *into = '\0';
}

/* Whether the text is the number of a byte, as a site spells it. The byte is then put there. */
static bool read_byte(const char *text, unsigned char *into) {
    size_t digits = strspn(text, "0123456789");
    if (digits < 1 || digits > 3 || text[digits] != '\0' || (digits > 1 && text[0] == '0')) return false;
    long number = strtol(text, NULL, 10);
    if (number > UCHAR_MAX) return false;
    *into = (unsigned char)number;
    return true;
}

/* Asks for the piece as one block, and for one byte as a load or a store: where its page is here these need no place among the asks that wait,
   and a block does. */
static void ask_piece(const struct piece *piece, char line[ASK_BYTES]) {
    if (piece->into != NULL && piece->length == 1) {
        snprintf(line, ASK_BYTES, "load %d %zu", piece->at, piece->offset);
    } else if (piece->into != NULL) {
        snprintf(line, ASK_BYTES, "read %d %zu %zu", piece->at, piece->offset, piece->length);
    } else if (piece->length == 1) {
        snprintf(line, ASK_BYTES, "store %d %zu %d", piece->at, piece->offset, *piece->from);
    } else {
        int front = snprintf(line, ASK_BYTES, "write %d %zu ", piece->at, piece->offset);
        encode(piece->from, piece->length, line + front);
    }
}

/* Takes the answer. Where the ask found 64 others waiting at the site it wasn't kept there, and the answer is 1. */
static int take_piece(const char *words, const struct piece *piece) {
    bool reads = piece->into != NULL;
    if (!reads && strcmp(words, "stored") == 0) return 0;
    if (reads && piece->length == 1 && strncmp(words, "byte ", 5) == 0 && read_byte(words + 5, piece->into)) return 0;
    if (reads && piece->length > 1 && strncmp(words, "block ", 6) == 0 && decode(words + 6, piece->into, piece->length)) return 0;
    if (strcmp(words, "waiting") == 0 || strcmp(words, "fault") == 0) return 1;
    if (strncmp(words, "refused ", 8) == 0) return refused(strtol(words + 8, NULL, 10));
    return failed(EIO);
}

static int access_piece(struct leddwyfan *site, const struct piece *piece) {
    int64_t deadline = deadline_of(site);
    for (;;) {
        struct batch *batch = new_batch(1, BLOCK_ANSWER_BYTES, false);
        if (batch == NULL) return -1;
        ask_piece(piece, batch->asks[0].line);
        int result = exchange(site, batch, deadline);
        if (result == 0) result = take_piece(batch->asks[0].answer, piece);
        free_batch(batch);
        if (result <= 0) return result;
        pause_for(TICK);
    }
}

/* Reads or stores page by page. What no line can ask for is refused at once: all offsets are below 2^32. */
static int access_all(struct leddwyfan *site, struct piece piece) {
    const uint64_t offsets = (uint64_t)1 << 32;
    size_t left = piece.length;
    if (piece.at < 0) return failed(EINVAL);
    if ((uint64_t)piece.offset >= offsets || left > offsets - piece.offset) return failed(EFAULT);
    if (left > 0 && piece.from == NULL && piece.into == NULL) return failed(EFAULT);
    while (left > 0) {
        size_t of_page = PAGE - piece.offset % PAGE;
        piece.length = left < of_page ? left : of_page;
        if (access_piece(site, &piece) < 0) return -1;
        left -= piece.length;
        piece.offset += piece.length;
        if (piece.from != NULL) piece.from += piece.length;
        if (piece.into != NULL) piece.into += piece.length;
    }
    return 0;
}

int shm_read(struct leddwyfan *site, int at, size_t offset, void *bytes, size_t length) {
    return access_all(site, (struct piece){at, offset, length, NULL, bytes});
}

int shm_write(struct leddwyfan *site, int at, size_t offset, const void *bytes, size_t length) {
    return access_all(site, (struct piece){at, offset, length, bytes, NULL});
}

/* A lock over sites. Site K's flag is the byte at the lock's offset + PAGE * K, so each lies on a page of its own where the offset is a page's
   first, and a site alone stores its own (Burns and Lynch 1980; Lamport 1986, "The mutual exclusion problem", the one-bit algorithm). All it
   takes is that a load gives what was stored last. */

struct flags {
    struct leddwyfan *site;
    int at;
    size_t offset;
    int64_t deadline;
};

/* How many of the sites from `first` to before `end` have raised their flag, or -1. */
static int raised(const struct flags *flags, unsigned first, unsigned end) {
    int count = 0;
    for (unsigned site = first; site < end; site++) {
        unsigned char flag;
        if (shm_read(flags->site, flags->at, flags->offset + (size_t)PAGE * site, &flag, 1) < 0) return -1;
        count += flag != 0;
    }
    return count;
}

static int store_flag(const struct flags *flags, unsigned char flag) {
    return shm_write(flags->site, flags->at, flags->offset + (size_t)PAGE * flags->site->me, &flag, 1);
}

/* Waits until none of these sites has raised its flag. */
static int wait_lowered(const struct flags *flags, unsigned first, unsigned end) {
    int count;
    while ((count = raised(flags, first, end)) > 0) {
        if (flags->deadline != 0 && now() >= flags->deadline) return failed(ETIMEDOUT);
        pause_for(SPIN);
    }
    return count;
}

/* The link to what a thread of this site has or wants of this lock, or to NULL. */
static struct claim **claim_of(const struct flags *flags) {
    struct claim **link = &flags->site->claims;
    while (*link != NULL && ((*link)->at != flags->at || (*link)->offset != flags->offset)) link = &(*link)->next;
    return link;
}

/* Waits until no other thread of this site has the lock or wants it, or fails at once with EBUSY. */
static int claim(const struct flags *flags, bool waits) {
    struct leddwyfan *site = flags->site;
    struct claim *claim = malloc(sizeof *claim);
    int fault = 0;
    if (claim == NULL) return -1;
    *claim = (struct claim){NULL, flags->at, flags->offset};
    pthread_mutex_lock(&site->lock);
    while (*claim_of(flags) != NULL && fault == 0) {
        fault = waits ? fault_at(site, flags->deadline) : EBUSY;
        if (fault == 0) wait_for_change(site);
    }
    if (fault == 0) *claim_of(flags) = claim;
    pthread_mutex_unlock(&site->lock);
    if (fault == 0) return 0;
    free(claim);
    return failed(fault);
}

static void disclaim(const struct flags *flags) {
    struct leddwyfan *site = flags->site;
    pthread_mutex_lock(&site->lock);
    struct claim **link = claim_of(flags), *claim = *link;
    if (claim != NULL) *link = claim->next;
    pthread_cond_broadcast(&site->changed);
    pthread_mutex_unlock(&site->lock);
    free(claim);
}

/* Goes on until the lock is this site's. */
static int win(const struct flags *flags) {
    unsigned me = flags->site->me;
    int before;
    if (store_flag(flags, 1) < 0) return -1;
    while ((before = raised(flags, 0, me)) > 0) {
        if (store_flag(flags, 0) < 0 || wait_lowered(flags, 0, me) < 0 || store_flag(flags, 1) < 0) return -1;
    }
    return before < 0 ? -1 : wait_lowered(flags, me + 1, flags->site->sites);
}

/* The lock is this site's where no other one wants it; else the answer is -1. */
static int win_at_once(const struct flags *flags) {
    unsigned me = flags->site->me;
    if (store_flag(flags, 1) < 0) return -1;
    int before = raised(flags, 0, me);
    int behind = before == 0 ? raised(flags, me + 1, flags->site->sites) : 0;
    if (before < 0 || behind < 0) return -1;
    return before > 0 || behind > 0 ? failed(EBUSY) : 0;
}

/* A call that fails lowers the site's flag, where that can be done, and leaves the lock to other threads. */
static int give_up(const struct flags *flags, int number) {
    store_flag(flags, 0);
    disclaim(flags);
    return failed(number);
}

int shm_lock(struct leddwyfan *site, int at, size_t offset) {
    if (check_owner(site) < 0) return -1;
    struct flags flags = {site, at, offset, deadline_of(site)};
    if (claim(&flags, true) < 0) return -1;
    return win(&flags) < 0 ? give_up(&flags, errno) : 0;
}

int shm_trylock(struct leddwyfan *site, int at, size_t offset) {
    if (check_owner(site) < 0) return -1;
    struct flags flags = {site, at, offset, deadline_of(site)};
    if (claim(&flags, false) < 0) return -1;
    return win_at_once(&flags) < 0 ? give_up(&flags, errno) : 0;
}

int shm_unlock(struct leddwyfan *site, int at, size_t offset) {
    struct flags flags = {site, at, offset, 0};
    if (store_flag(&flags, 0) < 0) return -1;
    disclaim(&flags);
    return 0;
}

/* Starting and stopping. */

static int make_words(struct leddwyfan *site, const struct leddwyfan_options *options) {
    size_t count = 0;
    while (options->program[count] != NULL) count++;
    if (count == 0 || (options->begin && options->journal == NULL)) return failed(EINVAL);
    if (seal_make(&site->seal, options->cluster, options->key) < 0) return -1;
    const unsigned numbers[] = {options->sites, options->me, options->pages};
    for (int number = 0; number < 3; number++) snprintf(site->numbers[number], sizeof site->numbers[number], "%u", numbers[number]);
    const char *further[] = {"site",  "--sites", site->numbers[0], "--me", site->numbers[1], "--preset", site->numbers[2],
                             "--cluster", options->cluster, "--key", options->key, "--journal", options->journal, "--new"};
    bool wanted[] = {true, true, true, true, true, true, true, options->cluster != NULL, options->cluster != NULL,
                     options->key != NULL, options->key != NULL, options->journal != NULL, options->journal != NULL, options->begin};
    site->words = calloc(count + sizeof further / sizeof *further + 1, sizeof *site->words);
    if (site->words == NULL) return failed(ENOMEM);
    size_t all = 0;
    for (size_t place = 0; place < count + sizeof further / sizeof *further; place++) {
        if (place >= count && !wanted[place - count]) continue;
        site->words[all] = strdup(place < count ? options->program[place] : further[place - count]);
        if (site->words[all++] == NULL) return failed(ENOMEM);
    }
    if (options->begin) site->begin = site->words + all - 1;
    return 0;
}

static void free_site(struct leddwyfan *site) {
    int number = errno;
    while (site->claims != NULL) {
        struct claim *claim = site->claims;
        site->claims = claim->next;
        free(claim);
    }
    for (char **copied = site->words; copied != NULL && *copied != NULL; copied++) free(*copied);
    free(site->words);
    free(site->from_stream.bytes.start);
    free(site->to_stream.bytes.start);
    free(site->from_site.bytes.start);
    free(site->to_site.bytes.start);
    pthread_cond_destroy(&site->changed);
    pthread_mutex_destroy(&site->calls);
    pthread_mutex_destroy(&site->lock);
    free(site);
    errno = number;
}

static struct leddwyfan *new_site(const struct leddwyfan_options *options) {
    struct leddwyfan *site = calloc(1, sizeof *site);
    if (site == NULL) return NULL;
    struct timespec time;
    clock_gettime(CLOCK_REALTIME, &time);
    site->sites = options->sites;
    site->me = options->me;
    site->owner = getpid();
    site->timeout = options->timeout;
    site->restarts = options->journal == NULL ? 0 : RESTARTS;
    site->uid = (uint32_t)getuid();
    site->gid = (uint32_t)getgid();
    site->from_stream.descriptor = options->reader;
    site->to_stream.descriptor = options->writer;
    site->last_tick = site->last_heard = now();
    /* Tags that no other caller of this site has. */
    unsigned name = ((unsigned)time.tv_nsec ^ (unsigned)time.tv_sec << 4 ^ (unsigned)getpid() << 12) & 0xffffff;
    snprintf(site->name, sizeof site->name, "%06x", name);
    pthread_condattr_t monotonic;
    pthread_condattr_init(&monotonic);
    pthread_condattr_setclock(&monotonic, CLOCK_MONOTONIC);
    pthread_cond_init(&site->changed, &monotonic);
    pthread_condattr_destroy(&monotonic);
    pthread_mutex_init(&site->calls, NULL);
    pthread_mutex_init(&site->lock, NULL);
    return site;
}

/* Starts the thread. It takes no signals: a pipe whose reader has gone is told by errno there. */
static int start_thread(struct leddwyfan *site) {
    int ends[2];
    if (make_pipe(ends) < 0) return -1;
    site->wake_reader = ends[0];
    site->wake_writer = ends[1];
    sigset_t all;
    sigfillset(&all);
    pthread_sigmask(SIG_SETMASK, &all, &site->signals);
    int fault = set_not_to_block(ends[0]) < 0 || set_not_to_block(ends[1]) < 0 ? errno : 0;
    if (fault == 0 && start_process(site) < 0) fault = errno;
    if (fault == 0) {
        fault = pthread_create(&site->thread, NULL, carry, site);
        if (fault != 0) end_process(site);
    }
    pthread_sigmask(SIG_SETMASK, &site->signals, NULL);
    if (fault == 0) return 0;
    close_pipe(ends);
    return failed(fault);
}

struct leddwyfan *leddwyfan_start(const struct leddwyfan_options *options) {
    if (options->sites > MOST_SITES || options->me >= options->sites) {
        errno = EINVAL;
        return NULL;
    }
    if (set_not_to_block(options->reader) < 0 || set_not_to_block(options->writer) < 0) return NULL;
    struct leddwyfan *site = new_site(options);
    if (site == NULL) return NULL;
    if (make_words(site, options) < 0 || start_thread(site) < 0) {
        free_site(site);
        return NULL;
    }
    return site;
}

/* Checks that something came for this site since, and it goes on. */
static bool is_asked(struct leddwyfan *site, int64_t since) {
    pthread_mutex_lock(&site->lock);
    bool asked = site->fault == 0 && site->last_heard >= since;
    pthread_mutex_unlock(&site->lock);
    return asked;
}

/* Writes a line that all sites pass over. A carrier that waits for a line to find out that nobody reads it any more, as `mosquitto_sub` does,
   ends by it. */
static void say_last_line(struct leddwyfan *site) {
    char line[16];
    int length = snprintf(line, sizeof line, "bye %u", site->me);
    pthread_mutex_lock(&site->lock);
    if (site->fault == 0) {
        push(site, &site->to_stream, line, (size_t)length);
        write_more(&site->to_stream);
    }
    pthread_mutex_unlock(&site->lock);
}

void leddwyfan_leave(struct leddwyfan *site, unsigned seconds) {
    if (check_owner(site) < 0) return;
    int64_t begin;
    do {
        begin = now();
        pause_for(1000 * (int)seconds);
    } while (is_asked(site, begin));
    say_last_line(site);
    leddwyfan_stop(site);
}

void leddwyfan_stop(struct leddwyfan *site) {
    if (check_owner(site) < 0) return;
    pthread_mutex_lock(&site->lock);
    site->stopping = true;
    fail(site, ESHUTDOWN);
    wake(site);
    pthread_mutex_unlock(&site->lock);
    pthread_join(site->thread, NULL);
    if (site->process != 0) end_process(site);
    close(site->wake_reader);
    close(site->wake_writer);
    free_site(site);
}
