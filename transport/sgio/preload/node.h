/* Not proved. This folder makes a shared object for LD_PRELOAD. With it, a path that you choose is an
 * sg node, whose SG_IO goes to the server. The environment has its settings:
 *
 *     MDL_PATH        the path, compared as a text. By default it is /dev/mehdalung.
 *     MDL_SOCKET      the server's socket, by the text of its --socket.
 *     MDL_INITIATOR   the initiator that this process is. A base disk has 0 to 7, and an extended disk 0 to
 *                     63. By default it is 0.
 *
 * A descriptor of the node is a connection to the server. The object remembers nothing about it. It
 * asks the system each time, so duplicates and inherited descriptors work, too. */
#ifndef NODE_H
#define NODE_H

#include <scsi/sg.h>
#include <sys/stat.h>

/* From Linux's sg.h. The C library's header does not have these. */
#define SG_DXFER_UNKNOWN (-5)
#define SG_FLAG_MMAP_IO 4
#define SG_SCSI_RESET_TARGET 4
#define SG_SCSI_RESET_NO_ESCALATE 0x100

/* Returns 1 if a path is the node's, and MDL_SOCKET names a server. */
int is_node_path(const char *path);

/* Returns 1 if a descriptor is open at the node. */
int is_node(int descriptor);

/* Opens the node, with open's flags. Returns -1 with errno as for an sg node: ENXIO if no server
 * listens, EINVAL if MDL_INITIATOR is no initiator of the disk. */
int open_node(int flags);

/* The initiator of this process, or -1 if no disk has it. */
int initiator_of_process(void);

/* Returns 0 if the disk at a descriptor has an initiator, and otherwise a negative errno: EINVAL, or ENXIO if
 * the server does not answer. */
int find_initiator(int descriptor, int initiator);

/* Writes the result of stat for the node: a character device of the sg driver. */
void put_node_status(struct stat *status);

/* The same for statx. */
void put_node_statx(struct statx *status);

/* SG_IO with the header of sg's version 3. Returns 0 or a negative errno, as sg's driver does. */
int execute_sg_io(int descriptor, sg_io_hdr_t *header);

/* SG_SCSI_RESET, which resets the disk. Returns 0 or a negative errno, as Linux does. */
int reset_node(int descriptor, const void *argument);

/* The other ioctls of an sg node that the tools use. Returns their result or a negative errno. */
int answer_ioctl(unsigned long request, void *argument);

/* The library's function that ours replaces: NEXT(function, ioctl) declares and finds it. ISO C has
 * no conversion from dlsym's pointer, so its bytes are copied. */
#define NEXT(name, symbol) \
    do { \
        void *found = dlsym(RTLD_NEXT, symbol); \
        memcpy(&name, &found, sizeof found); \
    } while (0)

#endif
