/* Not proved. The client's end of a connection to the server. */
#ifndef CONNECTION_H
#define CONNECTION_H

#include "message.h"

/* A request and its reply. */
struct exchange {
    uint8_t initiator, cdb_length;
    const uint8_t *cdb;
    uint32_t data_out_length;  /* at most MOST_DATA_OUT */
    const uint8_t *data_out;
    uint8_t *data_in;          /* MDL_BUFFER_LENGTH bytes, written */
    int timeout;               /* in milliseconds, or -1 */
    struct reply_header reply; /* written */
};

/* Connects to the server at a path, by a socket with these flags (SOCK_CLOEXEC). Returns -1 with
 * errno where it can't. */
int connect_to(const char *path, int flags);

/* Returns 1 if a descriptor, which may be anything, is a connection to the server at a path. A
 * duplicate of one is, and so is an inherited one. errno stays as it was. */
int is_connected_to(int descriptor, const char *path);

/* Sends a command and reads its reply. Returns 0, or an errno. ETIMEDOUT means that the time is
 * over. The next exchange then passes over the late reply, if one comes. But if part of the request
 * was sent or part of the reply had come, the connection is of no use. ENODEV means that the server
 * is gone, or sends something that is no reply. After it the connection is of no use. One thread at
 * a time: all connections of a process share a buffer. */
int exchange_command(int connection, struct exchange *exchange);

/* The same for a power cycle. `reply` is written. */
int exchange_power_cycle(int connection, struct reply_header *reply);

/* The same for the question whether the disk has an initiator, with a timeout in milliseconds, or -1. `reply`
 * is written. */
int exchange_question(int connection, uint8_t initiator, int timeout, struct reply_header *reply);

/* The same for what happens to the disk, with a timeout in milliseconds, or -1. `reply` is written. */
int exchange_happening(int connection, const mdl_happening *happening, int timeout,
                       struct reply_header *reply);

#endif
