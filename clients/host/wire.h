/* Between a program's preloaded library and its machine's leddwyfan-host: one message each way over a SOCK_SEQPACKET socket, an ask and its
   answer, with a descriptor beside it where one is handed over. */
#ifndef WIRE_H
#define WIRE_H

#include <errno.h>
#include <fcntl.h>
#include <stdbool.h>
#include <stdint.h>
#include <stdio.h>
#include <stdlib.h>
#include <string.h>
#include <sys/shm.h>
#include <sys/socket.h>
#include <sys/un.h>
#include <time.h>
#include <unistd.h>

#define DEFAULT_SOCKET "/run/leddwyfan.socket"

enum { PAGE = 4096 };

static const int64_t SECOND = 1000000000;

enum {
    ASK_DEVICE, /* answered with the descriptor of /dev/userfaultfd, or with none where the daemon has none */
    ASK_FAULTS, /* hands over the program's userfaultfd, and `address`, its page of names; answered with the daemon's lock */
    ASK_NAMED,  /* this is the program that reads `size` in its page of names; answered with its userfaultfd */
    ASK_ATTACH, /* answered with the segment's memory and length: the program maps it, and says so: */
    ASK_MAPPED, /* at `address`, or 0 where that failed */
    ASK_GET, ASK_STATUS, ASK_SET, ASK_REMOVE, /* what the calls have as arguments */
};

struct ask {
    int32_t kind, id, flags;
    key_t key;
    uint64_t size, address;
    struct ipc_perm owner;
};

struct answer {
    int32_t error, id, sites; /* an errno, or 0; how many machines there are, each of which names every so manieth segment */
    struct shmid_ds status;
};

/* Nanoseconds. */
static inline int64_t now(void) {
    struct timespec time;
    clock_gettime(CLOCK_MONOTONIC, &time);
    return time.tv_sec * SECOND + time.tv_nsec;
}

/* What a call that fails gives. */
static inline int failed(int error) {
    errno = error;
    return -1;
}

/* Where programs find their daemon. */
static inline const char *socket_path(void) {
    const char *path = getenv("LEDDWYFAN_SOCKET");
    return path == NULL ? DEFAULT_SOCKET : path;
}

/* A connection to the daemon that has this socket, or -1: with ECONNREFUSED where the file is there, but nobody answers. */
static inline int connect_to(const char *path) {
    struct sockaddr_un address = {.sun_family = AF_UNIX};
    int made = strlen(path) < sizeof address.sun_path ? socket(AF_UNIX, SOCK_SEQPACKET | SOCK_CLOEXEC, 0) : failed(ENAMETOOLONG);
    if (made < 0) return made;
    strcpy(address.sun_path, path);
    if (connect(made, (struct sockaddr *)&address, sizeof address) == 0) return made;
    int error = errno;
    close(made);
    return failed(error);
}

/* `descriptor` is -1 for none. Both give what sendmsg(2) and recvmsg(2) give. */
static inline ssize_t send_message(int socket, const void *message, size_t size, int descriptor) {
    union { char bytes[CMSG_SPACE(sizeof(int))]; struct cmsghdr header; } beside = {.header = {CMSG_LEN(sizeof(int)), SOL_SOCKET, SCM_RIGHTS}};
    struct iovec part = {(void *)(uintptr_t)message, size};
    struct msghdr header = {.msg_iov = &part, .msg_iovlen = 1};
    if (descriptor >= 0) {
        header.msg_control = beside.bytes;
        header.msg_controllen = sizeof beside.bytes;
        memcpy(CMSG_DATA(&beside.header), &descriptor, sizeof descriptor);
    }
    return sendmsg(socket, &header, MSG_NOSIGNAL);
}

static inline ssize_t receive_message(int socket, void *message, size_t size, int *descriptor) {
    union { char bytes[CMSG_SPACE(sizeof(int))]; struct cmsghdr header; } beside;
    struct iovec part = {message, size};
    struct msghdr header = {.msg_iov = &part, .msg_iovlen = 1, .msg_control = beside.bytes, .msg_controllen = CMSG_LEN(sizeof *descriptor)};
    ssize_t length = recvmsg(socket, &header, MSG_CMSG_CLOEXEC);
    *descriptor = -1;
    if (length > 0 && CMSG_FIRSTHDR(&header) != NULL) memcpy(descriptor, CMSG_DATA(&beside.header), sizeof *descriptor);
    return length;
}

#define EXPORTED __attribute__((visibility("default")))

enum { OF_64_BITS = 0x100 }; /* a bit of shmctl's and semctl's commands that says nothing new */

#endif
