/* Not proved. See front.h. */
#include "front.h"

#include <linux/vhost_types.h>
#include <linux/virtio_config.h>
#include <linux/virtio_ring.h>
#include <poll.h>
#include <stdio.h>
#include <stdlib.h>
#include <string.h>
#include <sys/eventfd.h>
#include <sys/socket.h>
#include <sys/un.h>
#include <unistd.h>

#include "memory.h"

/* The queue has room for the pieces of 16 chains. */
enum { SIZE = 64, MILLISECONDS = 10000 };

/* Messages of the protocol, as qemu's page on vhost-user numbers them. */
enum {
    GET_FEATURES = 1, SET_FEATURES = 2, SET_OWNER = 3, SET_MEM_TABLE = 5, SET_VRING_NUM = 8,
    SET_VRING_ADDR = 9, SET_VRING_BASE = 10, SET_VRING_KICK = 12, SET_VRING_CALL = 13,
    GET_PROTOCOL_FEATURES = 15, SET_PROTOCOL_FEATURES = 16, SET_VRING_ENABLE = 18
};

enum { VERSION = 1, HEADER_LENGTH = 12, F_PROTOCOL_FEATURES = 30 };

#define WANTED (UINT64_C(1) << VIRTIO_F_VERSION_1 | UINT64_C(1) << F_PROTOCOL_FEATURES)

struct message {
    uint32_t kind, flags, length;
    union {
        uint64_t number;
        struct vhost_vring_state state;
        struct vhost_vring_addr address;
        struct { uint32_t count, padding; uint64_t guest, length, user, offset; } memory;
    } payload;
} __attribute__((packed));

struct front {
    int socket, kick, call;
    unsigned queue;
    struct vring_desc *descriptors;
    struct vring_avail *avail;
    struct vring_used *used;
    uint16_t offered, told, seen; /* free-running indexes; `told` of those that the device knows of */
};

/* Sends a message, with a descriptor if it is not -1. Returns 1 if that succeeds, as all that follow do. */
static int send_message(const struct front *front, struct message *message, int descriptor)
{
    union { char bytes[CMSG_SPACE(sizeof(int))]; struct cmsghdr aligned; } control;
    struct iovec bytes = { message, HEADER_LENGTH + message->length };
    struct msghdr header = { .msg_iov = &bytes, .msg_iovlen = 1 };
    struct cmsghdr *part;

    message->flags = VERSION;
    if (descriptor >= 0) {
        memset(&control, 0, sizeof control);
        header.msg_control = control.bytes;
        header.msg_controllen = sizeof control.bytes;
        part = CMSG_FIRSTHDR(&header);
        part->cmsg_level = SOL_SOCKET;
        part->cmsg_type = SCM_RIGHTS;
        part->cmsg_len = CMSG_LEN(sizeof descriptor);
        memcpy(CMSG_DATA(part), &descriptor, sizeof descriptor);
    }
    return sendmsg(front->socket, &header, MSG_NOSIGNAL) == (ssize_t)bytes.iov_len;
}

static int send_number(const struct front *front, uint32_t kind, uint64_t number, int descriptor)
{
    struct message message = { .kind = kind, .length = sizeof number, .payload.number = number };

    return send_message(front, &message, descriptor);
}

static int send_state(const struct front *front, uint32_t kind, unsigned number)
{
    struct message message = { .kind = kind, .length = sizeof message.payload.state };

    message.payload.state = (struct vhost_vring_state){ front->queue, number };
    return send_message(front, &message, -1);
}

/* Asks for a number. All messages before it have been handled then. */
static int ask(const struct front *front, uint32_t kind, uint64_t *number)
{
    struct message message = { .kind = kind };
    struct pollfd answer = { front->socket, POLLIN, 0 };
    ssize_t length = HEADER_LENGTH + sizeof *number;

    if (!send_message(front, &message, -1) || poll(&answer, 1, MILLISECONDS) != 1 ||
        recv(front->socket, &message, (size_t)length, MSG_WAITALL) != length)
        return 0;
    *number = message.payload.number;
    return message.kind == kind;
}

/* The addresses of the shared memory are the same in the device's eyes as here. */
static int share_memory(const struct front *front)
{
    uint64_t address = (uintptr_t)memory.bytes;
    struct message message = { .kind = SET_MEM_TABLE, .length = sizeof message.payload.memory };

    message.payload.memory.count = 1;
    message.payload.memory.guest = message.payload.memory.user = address;
    message.payload.memory.length = memory.length;
    return send_message(front, &message, memory.descriptor);
}

static int send_rings(const struct front *front)
{
    struct message message = { .kind = SET_VRING_ADDR, .length = sizeof message.payload.address };

    message.payload.address.index = front->queue;
    message.payload.address.desc_user_addr = (uintptr_t)front->descriptors;
    message.payload.address.used_user_addr = (uintptr_t)front->used;
    message.payload.address.avail_user_addr = (uintptr_t)front->avail;
    return send_message(front, &message, -1);
}

static int start(const struct front *front)
{
    struct message owner = { .kind = SET_OWNER };
    uint64_t offered = 0, others;

    return send_message(front, &owner, -1) && ask(front, GET_FEATURES, &offered) &&
           (offered & WANTED) == WANTED && ask(front, GET_PROTOCOL_FEATURES, &others) &&
           send_number(front, SET_PROTOCOL_FEATURES, 0, -1) && send_number(front, SET_FEATURES, WANTED, -1) &&
           share_memory(front) && send_state(front, SET_VRING_NUM, SIZE) &&
           send_state(front, SET_VRING_BASE, 0) && send_rings(front) &&
           send_number(front, SET_VRING_CALL, front->queue, front->call) &&
           send_number(front, SET_VRING_KICK, front->queue, front->kick) &&
           send_state(front, SET_VRING_ENABLE, 1) && ask(front, GET_FEATURES, &offered);
}

static int connect_to(const char *path)
{
    struct sockaddr_un address = { .sun_family = AF_UNIX };
    int descriptor = socket(AF_UNIX, SOCK_STREAM | SOCK_CLOEXEC, 0);

    if (descriptor < 0 || strlen(path) >= sizeof address.sun_path)
        return -1;
    strcpy(address.sun_path, path);
    return connect(descriptor, (const struct sockaddr *)&address, sizeof address) ? -1 : descriptor;
}

struct front *front_open(const char *path, unsigned queue)
{
    struct front *front = calloc(1, sizeof *front);

    if (!front)
        return NULL;
    front->queue = queue;
    front->socket = connect_to(path);
    front->kick = eventfd(0, EFD_CLOEXEC | EFD_NONBLOCK);
    front->call = eventfd(0, EFD_CLOEXEC | EFD_NONBLOCK);
    front->descriptors = take_memory(SIZE * sizeof *front->descriptors);
    front->avail = take_memory(sizeof *front->avail + SIZE * sizeof(uint16_t));
    front->used = take_memory(sizeof *front->used + SIZE * sizeof(struct vring_used_elem));
    if (front->socket >= 0 && front->kick >= 0 && front->call >= 0 && front->descriptors && front->avail &&
        front->used && start(front))
        return front;
    fprintf(stderr, "%s: no device of vhost-user\n", path);
    free(front);
    return NULL;
}

void front_offer(struct front *front, unsigned slot, const struct piece *pieces, unsigned count)
{
    uint16_t first = (uint16_t)(slot * MOST_PIECES);
    unsigned at;

    for (at = 0; at < count; at++)
        front->descriptors[first + at] = (struct vring_desc){
            (uintptr_t)pieces[at].bytes, pieces[at].length,
            (uint16_t)((pieces[at].is_written ? VRING_DESC_F_WRITE : 0) |
                       (at + 1 < count ? VRING_DESC_F_NEXT : 0)),
            (uint16_t)(first + at + 1)
        };
    front->avail->ring[front->offered % SIZE] = first;
    front->offered++;
    __atomic_store_n(&front->avail->idx, front->offered, __ATOMIC_RELEASE);
}

/* A device that is looking at the queue wants no event. */
static void tell(struct front *front)
{
    __atomic_thread_fence(__ATOMIC_SEQ_CST);
    if (front->told != front->offered &&
        !(__atomic_load_n(&front->used->flags, __ATOMIC_RELAXED) & VRING_USED_F_NO_NOTIFY))
        eventfd_write(front->kick, 1);
    front->told = front->offered;
}

int front_serve(struct front *front, void (*used)(void *context, unsigned slot), void *context)
{
    struct pollfd ready[] = { { front->call, POLLIN, 0 }, { front->socket, POLLIN, 0 } };
    eventfd_t count;
    uint16_t end;

    tell(front);
    while ((end = __atomic_load_n(&front->used->idx, __ATOMIC_ACQUIRE)) == front->seen) {
        if (poll(ready, 2, MILLISECONDS) < 1 || ready[1].revents)
            return 1;
        eventfd_read(front->call, &count);
    }
    while (front->seen != end) {
        uint32_t first = front->used->ring[front->seen % SIZE].id;

        front->seen++;
        used(context, first / MOST_PIECES);
    }
    return 0;
}
