/* Not proved. What `power` and `happen` do alike. */
#ifndef TELL_H
#define TELL_H

/* The exit status where no server does what the program asks for. */
enum { NO_SERVER = 15 };

/* Prints why a program fails. Returns NO_SERVER. */
int fail(const char *program, const char *why);

/* Connects to the server that MDL_SOCKET names. Where it can't, it prints why and returns -1. */
int open_server(const char *program);

#endif
