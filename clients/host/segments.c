/* The programs' calls: what the preloaded library asks over its connection, and the segments that are attached here.

   The site has attached each such segment once or twice, to read or to read and write, however many programs here have it. So what one more
   program may do is decided here, by the segment's record at its home. */
#include "host.h"

#include <sys/file.h>
#include <sys/mman.h>
#include <sys/stat.h>

enum { MADE = 1024 };

struct segment segments[MOST_SEGMENTS];

/* A program's connection. It is freed once it has ended and its calls have, too. */
struct connection {
    struct source source;
    struct connection *next, **place; /* in the list of all; what points to it there */
    int socket, calls;                /* -1 once it has ended; how many calls are under way */
    struct program *program;
    struct segment *promised; /* it was handed this one, and hasn't mapped it yet */
    struct ucred peer;
};

/* Who made a segment here, and when: of the last ones that were made. */
static struct made { int id; pid_t creator; time_t time; } made[MADE];

static struct connection *connections;
static int listener, lock;

/* Segments. */

static struct segment *segment_of(int id) {
    EACH_SEGMENT(segment) {
        if (segment->id == id) return segment;
    }
    return NULL;
}

struct page *page_of(int id, int attachment, int page) {
    EACH_SEGMENT(segment) {
        if (segment->id != id && (attachment < 0 || (segment->reading != attachment && segment->writing != attachment))) continue;
        return page >= 0 && (size_t)page < segment->length / PAGE ? &segment->pages[page] : NULL;
    }
    return NULL;
}

void segment_attached(struct segment *segment, int by) {
    segment->attached += by;
    segment->changed = now();
    *(by > 0 ? &segment->attach_time : &segment->detach_time) = time(NULL);
}

static struct segment *new_segment(int id, size_t size) {
    struct segment *segment = segments;
    while (segment < segments + MOST_SEGMENTS && segment->used) segment++;
    if (segment == segments + MOST_SEGMENTS) return NULL;
    size_t length = (size + PAGE - 1) / PAGE * PAGE;
    *segment = (struct segment){.used = true, .id = id, .length = length, .reading = -1, .writing = -1};
    segment->memory = memfd_create("leddwyfan", MFD_CLOEXEC);
    segment->pages = calloc(length / PAGE, sizeof *segment->pages);
    segment->twins = calloc(length, 1);
    if (segment->memory < 0 || ftruncate(segment->memory, (off_t)length) < 0) errx(1, "no memory for a segment");
    segment->bytes = mmap(NULL, length, PROT_READ | PROT_WRITE, MAP_SHARED, segment->memory, 0);
    if (segment->bytes == MAP_FAILED || segment->pages == NULL || segment->twins == NULL) errx(1, "no memory for a segment");
    for (size_t offset = 0; offset < length; offset += PAGE) {
        segment->pages[offset / PAGE] = (struct page){.segment = segment, .offset = offset, .twin = segment->twins + offset, .keeps = WRITE};
    }
    return segment;
}

static struct call *new_call(struct connection *connection, const struct ask *ask) {
    struct call *call = room(NULL, sizeof *call);
    *call = (struct call){.connection = connection, .ask = *ask};
    return call;
}

static void free_ended(struct connection *connection) {
    if (connection->socket >= 0 || connection->calls > 0) return;
    *connection->place = connection->next;
    if (connection->next != NULL) connection->next->place = connection->place;
    free(connection);
}

/* `descriptor` is handed over, or -1. */
static void finish(struct call *call, int error, int descriptor) {
    struct connection *connection = call->connection;
    call->answer.error = error;
    call->answer.sites = options.sites;
    if (connection->socket >= 0) send_message(connection->socket, &call->answer, sizeof call->answer, descriptor);
    connection->calls--;
    free_ended(connection);
    free(call);
}

static void detach(int attachment) {
    if (attachment >= 0) make_call(new_call(NULL, &(struct ask){0}), NULL, "detach %d", attachment);
}

static void give_back(struct segment *segment) {
    for (size_t index = 0; index < segment->length / PAGE; index++) {
        struct page *page = &segment->pages[index];
        page_leaves(page);
        for (struct fault *fault; (fault = page->faults) != NULL; free(fault)) page->faults = fault->next;
    }
    detach(segment->reading);
    detach(segment->writing);
    munmap(segment->bytes, segment->length);
    close(segment->memory);
    free(segment->pages);
    free(segment->twins);
    segment->used = false;
}

/* Gives the segments that nobody here has any more back to the site: after a while, as who detaches often attaches again. */
bool segments_turn(void) {
    bool here = false;
    EACH_SEGMENT(segment) {
        here = true;
        if (segment->attached == 0 && (segment->removed || now() > segment->changed + SECOND)) give_back(segment);
    }
    return here;
}

/* Those of an earlier daemon, which its journal has. */
void detach_leftovers(void) {
    for (int attachment = 1; attachment < 64; attachment++) detach(attachment);
}

/* Answers. */

/* The segment's record, to which comes what its home doesn't know: the programs here, each of which counts, and what they did when. */
static int take_status(const char *reply, int id, struct shmid_ds *status) {
    struct ipc_perm *owner = &status->shm_perm;
    const struct segment *segment = segment_of(id);
    const struct made *place = &made[id % MADE];
    unsigned key, mode;
    char mark[10];
    if (sscanf(reply, "stat key %u uid %u gid %u cuid %u cgid %u mode %o size %lu nattch %lu %9s", &key, &owner->uid, &owner->gid, &owner->cuid,
               &owner->cgid, &mode, &status->shm_segsz, &status->shm_nattch, mark) != 9) return EIO;
    owner->__key = (key_t)key;
    owner->mode = (unsigned short)(mode | (strcmp(mark, "marked") == 0 ? SHM_DEST : 0));
    if (place->id == id) status->shm_cpid = place->creator, status->shm_ctime = place->time;
    if (segment == NULL) return 0;
    status->shm_nattch += (unsigned long)(segment->attached - (segment->reading >= 0) - (segment->writing >= 0));
    status->shm_atime = segment->attach_time;
    status->shm_dtime = segment->detach_time;
    status->shm_lpid = segment->last;
    return 0;
}

static int take_made(struct call *call, const char *reply) {
    const struct ask *ask = &call->ask;
    int id;
    if (sscanf(reply, "id %d", &id) != 1) return EIO;
    struct made *place = &made[id % MADE];
    if ((ask->flags & IPC_CREAT || ask->key == IPC_PRIVATE) && place->id != id) *place = (struct made){id, call->connection->peer.pid, time(NULL)};
    call->answer.id = id;
    return 0;
}

static void answered(struct call *call, int error, const char *reply) {
    const struct ask *ask = &call->ask;
    struct segment *segment = segment_of(ask->id);
    if (error == 0 && ask->kind == ASK_GET) error = take_made(call, reply);
    if (error == 0 && ask->kind == ASK_STATUS) error = take_status(reply, ask->id, &call->answer.status);
    if (error == EIDRM && ask->kind == ASK_REMOVE && call->again) error = 0; /* made before the site was killed, and told to nobody */
    if (error == 0 && ask->kind == ASK_REMOVE && segment != NULL) segment->removed = true;
    finish(call, error, -1);
}

/* Attaching. */

static bool allows(const struct ipc_perm *owner, const struct connection *connection, unsigned needed) {
    unsigned bits = owner->mode;
    if (connection->peer.uid == owner->uid || connection->peer.uid == owner->cuid) bits >>= 6;
    else if (connection->peer.gid == owner->gid || connection->peer.gid == owner->cgid) bits >>= 3;
    return (bits & needed) == needed;
}

/* A site gives the least number that is free. So a lower one that no segment here has is of an attach whose answer was lost when the site was
   killed: it would keep its segment for good. */
static void detach_lost(int below) {
    char text[24];
    for (int attachment = 1; attachment < below; attachment++) {
        snprintf(text, sizeof text, "detach %d", attachment);
        if (page_of(-1, attachment, 0) == NULL && !is_to_call(text)) detach(attachment);
    }
}

static void hand_over(struct call *call, int error, struct segment *segment) {
    struct connection *connection = call->connection;
    if (error == 0 && connection->socket >= 0) {
        segment_attached(segment, 1);
        connection->promised = segment;
        segment->last = connection->peer.pid;
    }
    if (error == 0) call->answer.status.shm_segsz = segment->length;
    finish(call, error, error == 0 ? segment->memory : -1);
}

static void attached(struct call *call, int error, const char *reply) {
    int attachment = -1;
    if (error == 0 && sscanf(reply, "attached %d", &attachment) != 1) error = EIO;
    struct segment *segment = segment_of(call->ask.id);
    if (error == 0 && segment == NULL && (segment = new_segment(call->ask.id, call->answer.status.shm_segsz)) == NULL) error = EMFILE;
    int *place = error != 0 ? NULL : call->ask.flags & SHM_RDONLY ? &segment->reading : &segment->writing;
    if (place != NULL && *place < 0) *place = attachment;
    else detach(attachment);
    detach_lost(attachment);
    hand_over(call, error, segment);
}

static void attach(struct call *call, int error, const char *reply) {
    const struct connection *connection = call->connection;
    struct segment *segment = segment_of(call->ask.id);
    bool reads = call->ask.flags & SHM_RDONLY, here = segment != NULL && (segment->writing >= 0 || (reads && segment->reading >= 0));
    if (error == 0) error = take_status(reply, call->ask.id, &call->answer.status);
    if (error == 0 && !allows(&call->answer.status.shm_perm, connection, reads ? 04 : 06)) error = EACCES;
    if (error != 0 || here) hand_over(call, error, segment);
    else make_call(call, attached, "attach %u %u %d %s", connection->peer.uid, connection->peer.gid, call->ask.id, reads ? "ro" : "rw");
}

static int take_mapping(struct connection *connection, uint64_t address) {
    struct segment *segment = connection->promised;
    connection->promised = NULL;
    if (segment == NULL) return EINVAL;
    bool maps = address != 0 && connection->program != NULL && program_maps(connection->program, address, segment);
    segment_attached(segment, -1);
    return maps || address == 0 ? 0 : EMFILE;
}

/* Asks. */

static void take_ask(struct call *call, int handed) {
    struct connection *connection = call->connection;
    const struct ask *ask = &call->ask;
    const struct ipc_perm *owner = &ask->owner;
    uid_t uid = connection->peer.uid;
    gid_t gid = connection->peer.gid;
    unsigned key = (unsigned)ask->key, mode = (unsigned)ask->flags & 0777;
    const char *flags = ask->flags & IPC_CREAT ? ask->flags & IPC_EXCL ? "cx" : "c" : ask->flags & IPC_EXCL ? "x" : "-";
    call->makes = ask->kind == ASK_GET && (ask->key == IPC_PRIVATE || ask->flags & IPC_EXCL);
    if (handed >= 0 && ask->kind != ASK_FAULTS) close(handed);
    switch (ask->kind) {
    case ASK_DEVICE: finish(call, 0, device); break;
    case ASK_FAULTS: finish(call, program_new(handed, ask->address, &connection->program), lock); break;
    case ASK_NAMED: finish(call, 0, program_named(ask->size, &connection->program)); break;
    case ASK_MAPPED: finish(call, take_mapping(connection, ask->address), -1); break;
    case ASK_ATTACH: make_call(call, attach, "stat %u %u %d", uid, gid, ask->id); break;
    case ASK_GET: make_call(call, answered, "get %u %u %u %lu %03o %s", uid, gid, key, ask->size, mode, flags); break;
    case ASK_STATUS: make_call(call, answered, "stat %u %u %d", uid, gid, ask->id); break;
    case ASK_SET: make_call(call, answered, "set %u %u %d %u %u %03o", uid, gid, ask->id, owner->uid, owner->gid, owner->mode & 0777u); break;
    case ASK_REMOVE: make_call(call, answered, "remove %u %u %d", uid, gid, ask->id); break;
    default: finish(call, EINVAL, -1);
    }
}

static void end_connection(struct connection *connection) {
    if (connection->promised != NULL) segment_attached(connection->promised, -1);
    close_watched(connection->socket);
    connection->socket = -1;
    connection->promised = NULL;
    free_ended(connection);
}

static void connection_ready(struct source *source) {
    struct connection *connection = (struct connection *)source;
    struct ask ask;
    int handed;
    ssize_t length = receive_message(connection->socket, &ask, sizeof ask, &handed);
    if (length < 0 && (errno == EAGAIN || errno == EINTR)) return;
    programs_reap();
    if (length == sizeof ask && ask.id >= 0 && ask.size <= UINT32_MAX) {
        connection->calls++;
        take_ask(new_call(connection, &ask), handed);
        return;
    }
    end_connection(connection);
}

static void accept_program(struct source *source) {
    int socket = accept4(listener, NULL, NULL, SOCK_CLOEXEC | SOCK_NONBLOCK);
    (void)source;
    if (socket < 0) return;
    struct connection *connection = room(NULL, sizeof *connection);
    *connection = (struct connection){.source = {connection_ready}, .next = connections, .place = &connections, .socket = socket};
    if (connections != NULL) connections->place = &connection->next;
    connections = connection;
    socklen_t length = sizeof connection->peer;
    getsockopt(socket, SOL_SOCKET, SO_PEERCRED, &connection->peer, &length);
    watch(socket, &connection->source);
}

/* What a daemon that was killed left is replaced; what somebody answers at isn't, nor what is no socket. */
static void clear_socket(const char *name) {
    struct stat file;
    int other = connect_to(name);
    if (other < 0 && errno == ENOENT) return;
    if (other >= 0 || errno != ECONNREFUSED) errx(1, "another daemon answers at %s, or another program has it", name);
    if (stat(name, &file) < 0 || !S_ISSOCK(file.st_mode)) errx(1, "%s is no socket", name);
    unlink(name);
}

/* The lock is held by the daemon and by each program that it hands it to: while one of them lives, no other daemon begins, as such a program
   may have pages that the new one knew nothing of. The socket gets its name once it listens, so that no program finds it before. */
void listen_to_programs(void) {
    static struct source source = {accept_program};
    struct sockaddr_un address = {.sun_family = AF_UNIX};
    char name[sizeof address.sun_path + 8];
    if (strlen(options.socket) + strlen(".new") >= sizeof address.sun_path) errx(1, "%s is too long for a socket's name", options.socket);
    sprintf(address.sun_path, "%s.new", options.socket);
    snprintf(name, sizeof name, "%s.lock", options.socket);
    lock = open(name, O_RDWR | O_CREAT | O_CLOEXEC, 0600);
    if (lock < 0) err(1, "%s can't be made", name);
    if (flock(lock, LOCK_EX | LOCK_NB) < 0) errx(1, "another daemon has %s, or programs of an earlier one still run: end them first", options.socket);
    clear_socket(address.sun_path);
    clear_socket(options.socket);
    listener = socket(AF_UNIX, SOCK_SEQPACKET | SOCK_CLOEXEC | SOCK_NONBLOCK, 0);
    mode_t mask = umask(0);
    bool listens = bind(listener, (struct sockaddr *)&address, sizeof address) == 0 && listen(listener, 128) == 0;
    if (!listens || rename(address.sun_path, options.socket) < 0) err(1, "no socket %s", options.socket);
    umask(mask);
    watch(listener, &source);
}

/* At the daemon's end. A connection with a call under way stays in the list. */
void leave_programs(void) {
    for (struct connection *connection = connections, *next; connection != NULL; connection = next) {
        next = connection->next;
        if (connection->socket >= 0) end_connection(connection);
    }
    close(listener);
    unlink(options.socket);
}
