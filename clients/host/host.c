/* leddwyfan-host: one machine's daemon. It starts the site `shmdbg site`, carries lines between it and the other machines' sites, ticks it, and
   serves the programs that leddwyfan-run starts here.

       leddwyfan-host --sites N --me K [--journal FILE [--new] [--relaxed]] [--cluster NAME [--key FILE]] [--socket PATH]
                      [--stay MICROSECONDS] [--program shmdbg] [-- CARRIER.. [-- CARRIER..]]

   CARRIER is a command whose standard output has the lines of all sites, and whose standard input takes this site's: `-- ssh other ..`. Or it
   is two, the first of which gives the lines and the second takes them: `-- mosquitto_sub .. -- mosquitto_pub .. -l`. With none it is the
   daemon's own standard input and output. */
#include "host.h"

#include <getopt.h>
#include <poll.h>
#include <signal.h>
#include <sys/epoll.h>
#include <sys/prctl.h>
#include <sys/resource.h>
#include <sys/stat.h>
#include <sys/wait.h>

enum { READ_BYTES = 1 << 16, MOST_EMPTY = 1 << 18, PIPE_BYTES = 1 << 20, EVENTS = 64 };

static const int64_t TICK = SECOND / 20, IDLE_TICK = SECOND, UNWRITTEN_WAIT = 200000, AWAKE = 10000;

struct options options = {.me = -1, .socket = DEFAULT_SOCKET, .program = "shmdbg", .stay = 200000};

static struct channel from_carrier, to_carrier = {.descriptor = 1};
static char **carriers[2]; /* the commands' words */
static pid_t processes[2];
static int64_t carrier_due, last_tick; /* when ended commands are started again, or 0 */
static int poller;
static bool heard, carried = true; /* something came since the last tick, and since the carrier was started again */
static bool wrote;                 /* lines, in this turn */
static volatile sig_atomic_t ending;

void *room(void *old, size_t size) {
    void *memory = realloc(old, size);
    if (memory == NULL) errx(1, "no memory");
    return memory;
}

void watch(int descriptor, struct source *source) {
    struct epoll_event event = {.events = EPOLLIN, .data.ptr = source};
    if (epoll_ctl(poller, EPOLL_CTL_ADD, descriptor, &event) == 0) return;
    if (errno == EPERM) errx(1, "nothing can be awaited from standard input: give a carrier behind --");
    err(1, "nothing more can be awaited");
}

/* A child that is about to start a command has the descriptor, too: until then it would be awaited even if it is closed here. */
void close_watched(int descriptor) {
    epoll_ctl(poller, EPOLL_CTL_DEL, descriptor, NULL);
    close(descriptor);
}

/* Lines. */

static void reserve(struct channel *channel, size_t more) {
    if (channel->capacity - channel->length >= more) return;
    channel->capacity = 2 * channel->capacity + more;
    channel->bytes = room(channel->bytes, channel->capacity);
}

void push_bytes(struct channel *channel, const char *bytes, size_t length) {
    reserve(channel, length);
    if (length > 0) memcpy(channel->bytes + channel->length, bytes, length);
    channel->length += length;
}

/* A line that has no seal yet gets it. */
void push_line(struct channel *channel, const char *line, bool seals) {
    size_t length = strlen(line);
    reserve(channel, length + SEAL_BYTES + 1);
    char *copy = memcpy(channel->bytes + channel->length, line, length);
    if (seals) length += seal_append(&options.seal, copy, length);
    copy[length] = '\n';
    channel->length += length + 1;
}

/* A large buffer is freed once it is empty. */
void take_off(struct channel *channel, size_t count) {
    channel->length -= count;
    memmove(channel->bytes, channel->bytes + count, channel->length);
    if (channel->length > 0 || channel->capacity <= MOST_EMPTY) return;
    free(channel->bytes);
    channel->bytes = NULL;
    channel->capacity = 0;
}

void write_lines(struct channel *channel) {
    ssize_t count;
    wrote |= channel->length > 0;
    while (channel->length > 0 && (count = write(channel->descriptor, channel->bytes, channel->length)) > 0) take_off(channel, (size_t)count);
}

bool read_lines(struct channel *channel, void (*take)(char *)) {
    reserve(channel, READ_BYTES);
    ssize_t count = read(channel->descriptor, channel->bytes + channel->length, READ_BYTES);
    if (count <= 0) return count < 0 && (errno == EAGAIN || errno == EINTR);
    char *line = channel->bytes, *end = line + channel->length + count;
    for (char *feed; (feed = memchr(line, '\n', (size_t)(end - line))) != NULL; line = feed + 1) {
        *feed = '\0';
        take(line);
    }
    channel->length = (size_t)(end - channel->bytes);
    take_off(channel, (size_t)(line - channel->bytes));
    return true;
}

void carry(const char *line) {
    if (to_carrier.length < MOST_UNWRITTEN) push_line(&to_carrier, line, false);
}

/* Processes. */

static void set_up(int descriptor) {
    fcntl(descriptor, F_SETPIPE_SZ, PIPE_BYTES);
    fcntl(descriptor, F_SETFL, fcntl(descriptor, F_GETFL) | O_NONBLOCK);
}

/* Starts a command whose input and output are the channels'; without a channel, the daemon's own. */
pid_t start_process(char *const *words, struct channel *input, struct channel *output) {
    int into[2] = {0, -1}, out_of[2] = {-1, 1};
    if ((input != NULL && pipe2(into, O_CLOEXEC) < 0) || (output != NULL && pipe2(out_of, O_CLOEXEC) < 0)) err(1, "no pipe");
    pid_t process = fork();
    if (process == 0) {
        setpgid(0, 0); /* what a terminal interrupts is the daemon, which ends the others in order */
        signal(SIGPIPE, SIG_DFL);
        dup2(into[0], 0);
        dup2(out_of[1], 1);
        execvp(words[0], words);
        warn("%s can't be started", words[0]);
        _exit(127);
    }
    if (input != NULL) close(into[0]), set_up(input->descriptor = into[1]);
    if (output != NULL) close(out_of[1]), set_up(output->descriptor = out_of[0]);
    return process;
}

/* The carrier. */

static void hear_line(char *line) {
    heard = carried = true;
    pass_line(line);
}

static void stop_carrier(void) {
    close(from_carrier.descriptor);
    close(to_carrier.descriptor);
    for (int index = 0; index < 2; index++) {
        if (processes[index] > 0) kill(processes[index], SIGTERM), waitpid(processes[index], NULL, 0);
        processes[index] = 0;
    }
    from_carrier.length = to_carrier.length = 0;
}

/* A daemon whose own standard input has ended goes on for the programs that are there. */
static void carrier_ready(struct source *source) {
    (void)source;
    if (carrier_due != 0 || read_lines(&from_carrier, hear_line)) return;
    stop_carrier();
    if (carried) warnx("%s", carriers[0] == NULL ? "the stream has ended" : "the carrier has ended, and is started again each second");
    carried = false;
    carrier_due = carriers[0] == NULL ? INT64_MAX : now() + SECOND;
}

static void start_carrier(void) {
    static struct source source = {carrier_ready};
    bool two = carriers[1] != NULL;
    carrier_due = 0;
    if (options.sites == 1 && carriers[0] == NULL) return;
    if (carriers[0] == NULL) set_up(0), set_up(1);
    else processes[0] = start_process(carriers[0], two ? NULL : &to_carrier, &from_carrier);
    if (two) processes[1] = start_process(carriers[1], &to_carrier, NULL);
    watch(from_carrier.descriptor, &source);
}

/* The loop. */

static void tick(void) {
    if (carrier_due != 0 && now() > carrier_due) start_carrier();
    bool waits = heard || site_waits();
    EACH_SEGMENT(segment) waits |= segment->busy;
    if (now() < last_tick + (waits ? TICK : IDLE_TICK)) return;
    last_tick = now();
    heard = false;
    site_tick();
    EACH_PAGE(page) page->later = false;
    programs_reap();
}

/* What is ready. While nothing is, pages that have left are searched for sleepers. Where faults were served from what is here, others often follow,
   and to sleep and be woken takes as long as to serve one: so the daemon stays awake for a moment. */
static int wait_for_events(struct epoll_event *events, int64_t due, bool unwritten, bool served) {
    int64_t begun = now(), awake = served ? begun + AWAKE : begun, wait = due == INT64_MAX ? TICK : due - begun;
    bool searched = false;
    int count = 0;
    if (unwritten && wait > UNWRITTEN_WAIT) wait = UNWRITTEN_WAIT;
    wait = wait < 0 ? 0 : wait < TICK ? wait : TICK;
    while (count == 0 && now() < due) {
        bool searches = pages_search();
        if (!searches && (searched || now() >= awake)) break;
        searched |= searches;
        count = epoll_wait(poller, events, EVENTS, 0);
    }
    if (count != 0 || searched) return count;
    if (wait < TICK) { /* epoll_wait counts milliseconds */
        ppoll(&(struct pollfd){.fd = poller, .events = POLLIN}, 1, &(struct timespec){0, wait}, NULL);
        wait = 0;
    }
    return epoll_wait(poller, events, EVENTS, (int)(wait / (SECOND / 1000)));
}

static void turn(void) {
    static int count;
    struct epoll_event events[EVENTS];
    if (!segments_turn() && carrier_due == INT64_MAX) ending = 1;
    int64_t due = pages_turn();
    wrote = false;
    bool unwritten = !site_flush();
    if (carrier_due == 0) write_lines(&to_carrier);
    count = wait_for_events(events, due, unwritten || to_carrier.length > 0, count > 0 && !wrote);
    for (int index = 0; index < count; index++) {
        struct source *source = events[index].data.ptr;
        source->ready(source);
    }
    tick();
}

static void end(int signal) {
    ending = signal;
}

/* All that programs stored goes to the site, and its journal. Programs that go on wait at their next fault: a page that still comes is opened for
   nobody. */
static void finish(void) {
    EACH_PAGE(page) {
        page_leaves(page);
        page->asked = NONE;
    }
    site_end();
    write_lines(&to_carrier);
    stop_carrier();
    leave_programs();
}

/* The start. */

static const char usage[] = "--sites N --me K [--journal FILE [--new] [--relaxed]] [--cluster NAME [--key FILE]] [--socket PATH]\n"
                            "    [--stay MICROSECONDS] [--program shmdbg] [-- CARRIER.. [-- CARRIER..]]";

static void take_options(int argc, char **argv) {
    const char *sites = "", *me = "-1", *stay = "200", *broken = "", *begins = NULL, *relaxed = NULL;
    const struct option names[] = {{"sites", 1, NULL, 0}, {"me", 1, NULL, 1},      {"journal", 1, NULL, 2}, {"socket", 1, NULL, 3}, {"stay", 1, NULL, 4},
                                   {"break", 1, NULL, 5}, {"program", 1, NULL, 6}, {"cluster", 1, NULL, 7}, {"key", 1, NULL, 8},    {"new", 0, NULL, 9},
                                   {"relaxed", 0, NULL, 10}, {NULL, 0, NULL, 0}};
    const char **values[] = {&sites, &me, &options.journal, &options.socket, &stay, &broken, &options.program, &options.cluster, &options.key, &begins, &relaxed};
    for (int option; (option = getopt_long(argc, argv, "+", names, NULL)) >= 0;) {
        if (option == '?') errx(2, "%s", usage);
        *values[option] = optarg == NULL ? "" : optarg;
    }
    options.sites = atoi(sites);
    options.me = atoi(me);
    options.stay = 1000 * (int64_t)atoi(stay);
    options.broken = atoi(broken);
    options.begins = begins != NULL;
    options.relaxed = relaxed != NULL || options.journal == NULL;
    options.fresh = options.begins || options.journal == NULL;
    bool good = options.sites >= 1 && options.sites <= 16 && options.me >= 0 && options.me < options.sites;
    if (!good || (options.journal == NULL && (begins != NULL || relaxed != NULL)) || (options.key != NULL && options.cluster == NULL)) errx(2, "%s", usage);
    if (seal_make(&options.seal, options.cluster, options.key) < 0) err(1, "the cluster's name or key can't be used");
    if (argv[optind] != NULL) carriers[0] = argv + optind;
    for (char **word = argv + optind; *word != NULL && carriers[1] == NULL; word++) {
        if (strcmp(*word, "--") == 0) *word = NULL, carriers[1] = word + 1;
    }
}

int main(int argc, char **argv) {
    static char name[32];
    struct rlimit limit;
    take_options(argc, argv);
    snprintf(name, sizeof name, "leddwyfan-host %d", options.me);
    program_invocation_short_name = name;
    getrlimit(RLIMIT_NOFILE, &limit); /* each program here costs two descriptors */
    limit.rlim_cur = limit.rlim_max;
    setrlimit(RLIMIT_NOFILE, &limit);
    check_kernel();
    prctl(PR_SET_TIMERSLACK, 1); /* else each wait, as for the end of a stay, may be 50 us longer */
    umask(077); /* a journal has the bytes of segments */
    signal(SIGPIPE, SIG_IGN);
    sigaction(SIGTERM, &(struct sigaction){.sa_handler = end}, NULL);
    sigaction(SIGINT, &(struct sigaction){.sa_handler = end}, NULL);
    poller = epoll_create1(EPOLL_CLOEXEC);
    listen_to_programs();
    site_start();
    start_carrier();
    if (!options.fresh) detach_leftovers();
    last_tick = now();
    while (!ending) turn();
    finish();
    return 0;
}
