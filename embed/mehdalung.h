/* Mehdalung: a thin-provisioned SCSI disk in memory or in a file, with persistent reservations.
 *
 * The disk itself is proved. A written definition gives the status, the sense data, the data-in and
 * the state afterwards, for every disk and every command. The functions do what this header says if
 * the caller keeps the conditions beside them. Nothing checks that the caller does.
 *
 * Sizes are in bytes, unless a function says blocks. A block has 512 bytes.
 *
 * Memory. mdl_make, mdl_make_with_profile, mdl_open and mdl_open_device take all memory of a disk
 * from malloc, and mdl_free and mdl_close give it back. mdl_tool, mdl_decode and mdl_faults take
 * memory for the time of the call. No other function takes or frees any. You have to see to this:
 *     - malloc, realloc and free belong to one allocator.
 *     - malloc and realloc align a block to each power of two up to 16 that divides its size. The
 *       allocators of glibc and musl do.
 *     - You call no function of this header from a signal handler, or from the forked child of a
 *       process with threads.
 *
 * Stack. A call needs at most 64 KB of stack. Nothing checks that there is so much.
 *
 * Pointers. A pointer is null, or it is aligned for its type and points to as many bytes as the
 * function says. Until the function returns, nobody writes these bytes, and nobody reads the bytes
 * that the function may write. Those overlap no other bytes that you pass. A null pointer is
 * allowed with length 0, except for a tool's data-out, which has a minimum length. The function
 * refuses any other null pointer, by MDL_NULL_POINTER or MDL_NO_TEXT, unless it says that null is
 * allowed.
 *
 * Threads. Only one thread at a time may use a disk. A disk may go to another thread if a lock, or
 * the start or end of a thread, orders their calls. Many threads may use a disk each at once. The
 * library has no state of its own.
 */
#ifndef MEHDALUNG_H
#define MEHDALUNG_H

#include <stddef.h>
#include <stdint.h>

#ifdef __cplusplus
extern "C" {
#endif

#define MDL_VERSION_MAJOR 1
#define MDL_VERSION_MINOR 0
#define MDL_VERSION_PATCH 0

#define MDL_BLOCK_LENGTH 512u
#define MDL_SENSE_LENGTH 20u
#define MDL_CDB_LENGTH 16u

/* A disk of the base profile has MDL_INITIATORS initiators, 0 to 7. Any other disk has
 * MDL_MOST_INITIATORS, 0 to 63. In a mask of initiators, initiator i has bit i. The mask UINT64_MAX
 * names all initiators that the disk has. Any other mask may have only bits of these. */
#define MDL_INITIATORS 8u
#define MDL_MOST_INITIATORS 64u

/* A buffer of this length is long enough for the data-in of every command: a READ returns at most
 * 2,048 blocks, or 256 of a base disk. */
#define MDL_BUFFER_LENGTH 1048576u

/* The minimum length of the buffer for a tool's data-out. It has room for the longest list, an
 * UNMAP of 64 extents. */
#define MDL_DATA_OUT_LENGTH 1032u

/* The most bytes of one call on a disk's file: 4 MiB of records, three sectors of at most 65,536
 * bytes, and some more. */
#define MDL_LONGEST_CALL 4395008u

/* mdl_open and mdl_open_device take this in the place of a profile. A disk in a file may then have any. */
#define MDL_ANY_PROFILE 0xFFFFFFFFu

/* The result of a call. If it is not MDL_OK, the call has changed nothing, except with
 * MDL_FILE_FAILED and MDL_FLUSH_OWED. */
typedef enum mdl_error {
    MDL_OK = 0,
    MDL_NO_DISK = 1,            /* there is no disk: you made none, or you freed it */
    MDL_DISK_EXISTS = 2,        /* there is a disk already */
    MDL_BLOCKS = 3,             /* the number of blocks is not 1 to 2^40 */
    MDL_POOL = 4,               /* the size of the pool is 0, or above 65,536 blocks on a base disk */
    MDL_IDENTITY_TEXT = 5,      /* a text of the identity has a byte outside 20h to 7Eh */
    MDL_IDENTITY_LOCAL = 6,     /* the local identifier, or the seed, has more than 60 bits */
    MDL_OUT_OF_MEMORY = 7,      /* memory ran out */
    MDL_NO_INITIATOR = 8,       /* the disk has no such initiator, or a fault names none */
    MDL_BUFFER_TOO_SHORT = 9,   /* the buffer is too short for the data-in that the command asks
                                   for, or shorter than MDL_DATA_OUT_LENGTH for a tool's data-out */
    MDL_NULL_POINTER = 10,      /* a pointer is null that must not be */
    MDL_UNREADABLE = 11,        /* sense data can't be read */
    MDL_BAD_BYTE = 12,          /* a byte of the words is not printable ASCII and no tab */
    MDL_TOO_MANY_WORDS = 13,    /* there are more than 64 words */
    MDL_UNKNOWN_TOOL = 14,      /* there is no word, or the first is not the name of a tool */
    MDL_USAGE = 15,             /* the tool or the verb does not accept these words */
    MDL_EXCLUSIVE = 16,         /* two options exclude one another */
    MDL_NUMBER = 17,            /* an option's text is no value, or its value is out of range */
    MDL_UNKNOWN_PROFILE = 18,   /* the number is none of mdl_profile */
    MDL_UNKNOWN_HAPPENING = 19, /* the number is none of mdl_happening_kind */
    MDL_UNKNOWN_CONDITION = 20, /* no unit attention condition has the code */
    MDL_UNKNOWN_FAULT = 21,     /* the number is none of mdl_fault_outcome */
    MDL_SENSE_KEY = 22,         /* the sense key of a fault is none of SPC-4 */
    MDL_FAULT_FLAG = 23,        /* a flag of a fault is not 0 or 1, or a fault without blocks is
                                   healed by writes */
    MDL_FAULT_NUMBER = 24,      /* the number of a fault is not 0 to 7 */
    MDL_FAULTS = 25,            /* a fault is armed under each number */
    MDL_UNKNOWN_VERB = 26,      /* there is no word, or the first is no verb of a happening */
    MDL_FILE_FAILED = 27,       /* a call on the disk's file failed, now or earlier */
    MDL_FILE_BUSY = 28,         /* another program has the file, or another disk of this one */
    MDL_NOT_A_DISK = 29,        /* the file has something else, or it was not made to its end */
    MDL_OTHER_VERSION = 30,     /* the file has another version of the format */
    MDL_DAMAGED_FILE = 31,      /* a byte of the file is not what was written */
    MDL_FILE_TOO_LONG = 32,     /* the file has more than 2^60 bytes */
    MDL_OTHER_PROFILE = 33,     /* the file's disk has another profile than you asked for */
    MDL_OTHER_BLOCKS = 34,      /* it has another number of blocks */
    MDL_OTHER_POOL = 35,        /* it has a pool of another size */
    MDL_OTHER_IDENTITY = 36,    /* it has another identity */
    MDL_CANNOT_OPEN = 39,       /* the system refuses to open or to read the file: see errno */
    MDL_NO_FILE = 40,           /* the disk is not in a file */
    MDL_FLUSH_OWED = 41         /* the disk has executed the command, and its reply has to wait for
                                   mdl_flush: only mdl_execute_unflushed returns this */
} mdl_error;

/* A disk, or none. It begins as MDL_NONE. You own this variable. You do not read or write the field
 * inside. You may move a disk: copy it once, and never use the old variable again. */
typedef struct mdl_disk {
    void *target;
} mdl_disk;

/* An initializer; all bytes 0 is the same. */
#define MDL_NONE { 0 }

/* The names of a disk. Its texts are padded with spaces and have no zero at the end. The local
 * identifier, of at most 60 bits, is the number of the NAA designator in page 83h: NAA 3h on a disk of
 * the base profile, and NAA 6h on another one. */
typedef struct mdl_identity {
    uint8_t vendor[8];
    uint8_t product[16];
    uint8_t revision[4];
    uint8_t serial[8];
    uint64_t local;
} mdl_identity;

/* An initializer: the standard identity. */
#define MDL_STANDARD_IDENTITY \
    { { 'S', 'G', 'M', 'O', 'D', 'E', 'L', ' ' }, \
      { 'T', 'H', 'I', 'N', ' ', 'D', 'I', 'S', 'K', ' ', ' ', ' ', ' ', ' ', ' ', ' ' }, \
      { '0', '1', '0', '0' }, { '0', '0', '0', '0', '0', '0', '0', '1' }, 1 }

/* The commands that a disk has, and what it reports. docs/PROFILE.md of the source lists the commands. */
typedef enum mdl_profile {
    MDL_PROFILE_BASE = 0,         /* the commands that every disk has */
    MDL_PROFILE_EXTENDED = 1,     /* these and more, with more initiators and a far larger pool */
    MDL_PROFILE_EXTENDED_CUT = 2, /* the same as extended; but a WRITE, a WRITE AND VERIFY, an ORWRITE
                                     or a VERIFY with too little data-out is executed, and not
                                     refused. It goes over its first blocks, as many as data-out has
                                     in full. */
    MDL_PROFILE_EXTENDED_512E = 3 /* the same as extended; but the disk reports physical blocks of
                                     4,096 bytes. A logical block still has 512 bytes. */
} mdl_profile;

#define MDL_GOOD 0x00
#define MDL_CHECK_CONDITION 0x02
#define MDL_RESERVATION_CONFLICT 0x18
/* Only a disk with armed faults returns these. MDL_NO_REPLY is no status of SAM-5: the disk never
 * replies to the command, and a transport sends nothing for it. */
#define MDL_BUSY 0x08
#define MDL_TASK_SET_FULL 0x28
#define MDL_NO_REPLY 0xFF

/* The reply to a command. */
typedef struct mdl_reply {
    uint8_t status;                  /* MDL_GOOD, MDL_CHECK_CONDITION, MDL_RESERVATION_CONFLICT; or,
                                        with armed faults, another of the statuses above */
    uint8_t sense_length;            /* 0, unless the status is MDL_CHECK_CONDITION */
    uint8_t sense[MDL_SENSE_LENGTH]; /* sense data, and zeros after it */
    size_t data_in_length;           /* data-in is at the start of the buffer */
    uint64_t data_out_length;        /* how many bytes of data-out the CDB asks for, executed or
                                        refused; 0 if it is no command of the disk */
    uint64_t visits;                 /* how many records of the map the disk read */
    uint64_t probes;                 /* how many first addresses it compared */
    uint64_t links;                  /* how many links it followed to reach a block */
} mdl_reply;

/* Makes a disk of the base profile with `blocks` blocks, as after power on. At most `pool` of the
 * blocks can be mapped or anchored at once. No block is mapped, and a unit attention, POWER ON, is
 * pending for each initiator. The disk takes some 610 bytes of memory for each block of the pool,
 * and some 7,000 more.
 *     disk      MDL_NONE, or a disk that you freed. Free it by mdl_free.
 *     identity  The call reads it. Null means the standard identity.
 * Errors: MDL_NULL_POINTER, MDL_IDENTITY_TEXT, MDL_IDENTITY_LOCAL, MDL_DISK_EXISTS, MDL_BLOCKS,
 * MDL_POOL or MDL_OUT_OF_MEMORY. The first that applies is returned, and `disk` stays as it was. */
mdl_error mdl_make(mdl_disk *disk, uint64_t blocks, uint32_t pool, const mdl_identity *identity);

/* Makes a disk as mdl_make does, but of any profile: `profile` is one of mdl_profile. The pool of a
 * disk of an extended profile has up to 4,294,967,295 blocks, each of which takes some 630 bytes.
 * Errors: MDL_NULL_POINTER, MDL_UNKNOWN_PROFILE, or an error of mdl_make. The first that applies is
 * returned, and `disk` stays as it was. */
mdl_error mdl_make_with_profile(mdl_disk *disk, uint32_t profile, uint64_t blocks, uint32_t pool,
                                const mdl_identity *identity);

/* Makes the identity of a seed, a number of at most 60 bits. Two seeds make two identities, whose
 * designators in page 83h differ. The seed is the local identifier. Its lowest 32 bits, as
 * 8 hexadecimal digits, are the serial number. The other texts are those of the standard identity,
 * and seed 1 makes the standard identity. If an initiator sees two disks, give each a seed of its own,
 * such as 60 random bits.
 *     identity  The call writes it.
 * Errors: MDL_NULL_POINTER, or MDL_IDENTITY_LOCAL if the seed has more than 60 bits. Then `identity`
 * stays as it was. */
mdl_error mdl_identity_of_seed(uint64_t seed, mdl_identity *identity);

/* The calls on the file of a disk, for mdl_open_device. You own this variable, and it has to outlive the
 * disk. Each function returns 0, or another number if the call failed. The library makes one call after
 * another, and none after one has failed. Write them as follows:
 *     write_at     Writes `length` bytes at an offset of the file, which gets longer if they end beyond it.
 *     cut          Makes the file `length` bytes long, which is not longer than it is.
 *     sync         Waits until all that was written to the file, and its length, survive a power failure.
 *     begin_draft  Begins a second file, the draft, without bytes. An earlier draft is gone.
 *     write_draft  Writes `length` bytes to the end of the draft.
 *     exchange     Puts the draft in the place of the file, in one step. A power failure leaves the
 *                  whole file or the whole draft. From then on the draft is the file.
 *     close        The disk is gone. It may be null. It is called once, and mdl_device is not used again.
 * A power failure in a call of `write_at` or `cut` may leave any bytes where the call writes or cuts, and
 * no others. What was not synced may be there, or be lost, or be any bytes. */
typedef struct mdl_device {
    void *context; /* the first argument of each function */
    int (*write_at)(void *context, uint64_t at, const uint8_t *bytes, size_t length);
    int (*cut)(void *context, uint64_t length);
    int (*sync)(void *context);
    int (*begin_draft)(void *context);
    int (*write_draft)(void *context, const uint8_t *bytes, size_t length);
    int (*exchange)(void *context);
    void (*close)(void *context);
    uint8_t *room;      /* room for the bytes of a call, which the library writes */
    size_t room_length; /* its length, at least MDL_LONGEST_CALL */
} mdl_device;

/* Where a file is damaged. */
typedef struct mdl_damage {
    uint64_t batch;  /* the number of the batch with the damaged record, from 0 on; or 2^64 - 1 if the
                        damage is not in a record */
    uint64_t offset; /* the offset of that record in its batch, or of the damage in the file; or, with
                        MDL_OTHER_VERSION, the version */
} mdl_damage;

/* Opens the disk that a file keeps, as after power on. It has the blocks of the disk that was kept,
 * its profile, identity, saved mode pages and armed faults; and its registrations and reservation, if
 * they persist through a power loss (APTPL). `sgrun --disk` uses the same files.
 *     disk      MDL_NONE, or a disk that you freed. Free it by mdl_close or mdl_free.
 *     path      The call reads it, up to a zero. If there is no file, an empty one is made.
 *     profile   one of mdl_profile, or MDL_ANY_PROFILE
 *     blocks    the number of blocks, or 0 for any
 *     pool      the size of the pool, or 0 for any
 *     identity  The call reads it. Null means any.
 *     damage    With MDL_DAMAGED_FILE and MDL_OTHER_VERSION the call writes it. Otherwise it may write
 *               zeros. Null is allowed.
 *
 * An empty file becomes a new disk, as mdl_make_with_profile makes it. Then you have to give profile,
 * blocks and pool, and a null identity means the standard one. Otherwise each value that you give has
 * to be the disk's. If the call fails, it has written nothing to the file, except with
 * MDL_FILE_FAILED. A file that it has made is still there, and empty.
 *
 * What is in the file when a call returns. A new disk is in its file. All that was changed so far is in
 * the file when mdl_happen, mdl_power_cycle, mdl_flush or mdl_execute returns. With mdl_execute that is
 * so after a command that synchronizes the cache, verifies blocks, formats or sanitizes the disk, has FUA
 * or saves mode pages. It is so after PERSISTENT RESERVE OUT and START STOP UNIT, and after each command
 * while WCE is 0. Other commands wait in memory. If the program or the machine stops, the file has the
 * disk as after some first part of the commands, with all that was put there.
 *
 * What a failed call on the file does. The disk is dead: nothing more is written. The command
 * that made the call ends with CHECK CONDITION, HARDWARE ERROR, 44h/00h, and without data-in, and so
 * does each later one. mdl_execute returns MDL_OK all the same. mdl_happen, mdl_power_cycle,
 * mdl_flush and mdl_close return MDL_FILE_FAILED. Open the file again to find out what it has.
 *
 * You have to see to this:
 *     - Nobody else writes to the file. Its lock, flock(2), is advisory. It keeps out other calls of
 *       mdl_open and `sgrun`.
 *     - The file system keeps what fsync(2) and fdatasync(2) promise, and rename(2) replaces a file in one
 *       step. The folder is writable: from time to time the file is written afresh beside it, to the same
 *       path with ".new" at its end.
 *     - A forked child does not use the disk. It keeps the lock until it executes another program or ends.
 *
 * The call takes memory for the whole file, and gives it back when it returns. The disk takes some 14 MB
 * more than one in memory, and one descriptor or two, which are none of 0 to 2.
 * Errors: MDL_NULL_POINTER, MDL_DISK_EXISTS, MDL_CANNOT_OPEN, MDL_FILE_BUSY, MDL_OUT_OF_MEMORY,
 * MDL_FILE_TOO_LONG, or an error of mdl_open_device. The first that applies is returned, and `disk`
 * stays as it was. With MDL_CANNOT_OPEN errno says why. It is EISDIR for a folder, and EINVAL for a device
 * or a pipe. */
mdl_error mdl_open(mdl_disk *disk, const char *path, uint32_t profile, uint64_t blocks,
                   uint32_t pool, const mdl_identity *identity, mdl_damage *damage);

/* Opens a disk as mdl_open does, in any file that you read and write yourself. The calls on it are made
 * by this function, mdl_execute, mdl_execute_unflushed, mdl_happen, mdl_power_cycle, mdl_forget,
 * mdl_flush and mdl_close, in their order and before the function returns. They may use another disk, and
 * not this one.
 *     device    The calls on the file. If the call fails, `close` is not called.
 *     contents  length bytes, which the call reads: all that the file has. They may be null if `length`
 *               is 0.
 * The other arguments are those of mdl_open.
 * Errors: MDL_NULL_POINTER, MDL_BUFFER_TOO_SHORT if the room of the device is too short,
 * MDL_UNKNOWN_PROFILE, MDL_IDENTITY_TEXT, MDL_IDENTITY_LOCAL or MDL_DISK_EXISTS. For an empty file also
 * MDL_BLOCKS, MDL_POOL, MDL_OUT_OF_MEMORY and MDL_FILE_FAILED. For another file MDL_NOT_A_DISK, MDL_OTHER_VERSION,
 * MDL_DAMAGED_FILE, MDL_FILE_TOO_LONG and MDL_OUT_OF_MEMORY; and, if it has a disk, MDL_OTHER_PROFILE,
 * MDL_OTHER_BLOCKS, MDL_OTHER_POOL or MDL_OTHER_IDENTITY. `disk` then stays as it was. */
mdl_error mdl_open_device(mdl_disk *disk, mdl_device *device, const uint8_t *contents,
                          size_t length, uint32_t profile, uint64_t blocks, uint32_t pool,
                          const mdl_identity *identity, mdl_damage *damage);

/* Puts all that was changed so far into the file. Errors: MDL_NULL_POINTER, MDL_NO_DISK, MDL_NO_FILE or
 * MDL_FILE_FAILED. */
mdl_error mdl_flush(mdl_disk *disk);

/* Flushes a disk in a file, and closes the file. Then it frees the disk, whatever the result is.
 * A disk in memory is only freed. Errors: MDL_NULL_POINTER, MDL_NO_DISK, or MDL_FILE_FAILED if the file
 * may lack a part of what was changed. */
mdl_error mdl_close(mdl_disk *disk);

/* Frees a disk. Afterwards it is MDL_NONE. For null and MDL_NONE the call does nothing. A disk in a
 * file is not flushed, as if the program had stopped, but its file is closed. */
void mdl_free(mdl_disk *disk);

/* Executes a command for an initiator of the disk.
 *     cdb       cdb_length bytes, which the call reads. You may send any bytes.
 *     data_out  data_out_length bytes, which the call reads.
 *     data_in   data_in_length bytes. The call writes data-in to the first reply->data_in_length of
 *               them. The bytes after these stay as they were, except with the fault
 *               MDL_AFTER_SHORT_DATA_IN: then the rest of data-in follows.
 *     reply     The call writes it.
 * Each of the first three may be null if its length is 0.
 *
 * Errors: MDL_NULL_POINTER, MDL_NO_DISK, MDL_NO_INITIATOR or MDL_BUFFER_TOO_SHORT. The first that
 * applies is returned. The disk then executes nothing, and disk, buffer and reply stay as they
 * were.
 *
 * If a call on the disk's file fails, the reply is CHECK CONDITION, HARDWARE ERROR, 44h/00h, and
 * reply->data_in_length is 0. Any bytes of the buffer may have changed then.
 *
 * A buffer of MDL_BUFFER_LENGTH bytes is long enough for every command. An empty buffer is long
 * enough for a command that a check refuses. Any other command needs as many bytes as it asks for:
 *     - READ: the bytes of its blocks.
 *     - READ CAPACITY(10): 8 bytes.
 *     - A command with an allocation length: that length, and no more than its longest data:
 *           REQUEST SENSE              18
 *           READ CAPACITY(16)          32
 *           INQUIRY                    76
 *           MODE SENSE                112
 *           PERSISTENT RESERVE IN   3,080
 *           GET LBA STATUS          8,200
 *           LOG SENSE               1,284
 *           READ DEFECT DATA        1,284
 *           each REPORT command     1,284
 *     - Other commands: 0. */
mdl_error mdl_execute(mdl_disk *disk, uint32_t initiator, const uint8_t *cdb, size_t cdb_length,
                      const uint8_t *data_out, size_t data_out_length, uint8_t *data_in,
                      size_t data_in_length, mdl_reply *reply);

/* Executes a command as mdl_execute does, without a flush of the disk's file. So several commands share
 * one flush, which takes most of the time of a command while WCE is 0:
 *     1. Execute each command by this function.
 *     2. If it returns MDL_OK, the reply may go out at once: all that the command owes is in the file.
 *     3. If it returns MDL_FLUSH_OWED, keep the reply. The disk has executed the command, and other commands
 *        see what it changed. A crash may lose it.
 *     4. Call mdl_flush once for all replies that you keep. If it returns MDL_OK, they may go out.
 * The reply has to wait if mdl_execute would flush after the command, and if something waits for a flush. If
 * too much waits in memory, the function writes it to the file, and it still waits for the flush there.
 *
 * If mdl_flush returns MDL_FILE_FAILED, let none of these replies out. Each command has to end with CHECK
 * CONDITION, HARDWARE ERROR, 44h/00h. The disk is dead, and mdl_execute gives this reply to any command.
 * Opening the file finds the disk after some first part of the commands.
 *
 * The arguments and the errors are those of mdl_execute, and MDL_FLUSH_OWED. A disk in memory owes no
 * flush. */
mdl_error mdl_execute_unflushed(mdl_disk *disk, uint32_t initiator, const uint8_t *cdb,
                                size_t cdb_length, const uint8_t *data_out,
                                size_t data_out_length, uint8_t *data_in, size_t data_in_length,
                                mdl_reply *reply);

/* Takes the power of a disk away and gives it back. The blocks stay as they were. Registrations and
 * reservation stay if they persist through a power loss (APTPL). Otherwise they are gone. The saved
 * mode pages become the current ones, and PRGENERATION becomes 0. Only POWER ON is pending for each
 * initiator. Errors: MDL_NULL_POINTER, MDL_NO_DISK or MDL_FILE_FAILED. */
mdl_error mdl_power_cycle(mdl_disk *disk);

/* What an armed fault does to a command, and where it meets the command:
 *     - On arrival: before every check of the command. The disk does not execute the command.
 *     - At the medium: after the checks of the CDB, its data-out and its blocks. The fault meets
 *       only commands that pass these checks, and read or write at least one block.
 *     - Afterwards: after the command has ended with MDL_GOOD. The disk has executed it, and all of
 *       its data-in is in the buffer. */
typedef enum mdl_fault_outcome {
    MDL_ARRIVAL_BUSY = 0,                 /* MDL_BUSY */
    MDL_ARRIVAL_TASK_SET_FULL = 1,        /* MDL_TASK_SET_FULL */
    MDL_ARRIVAL_RESERVATION_CONFLICT = 2, /* MDL_RESERVATION_CONFLICT, even without a reservation */
    MDL_ARRIVAL_NO_REPLY = 3,             /* MDL_NO_REPLY */
    MDL_ARRIVAL_CHECK_CONDITION = 4,      /* MDL_CHECK_CONDITION with a sense key and code */
    MDL_ARRIVAL_DEFERRED_ERROR = 5,       /* the same, as a deferred error: an earlier command has
                                             failed (SPC-4, 4.5.5) */
    MDL_MEDIUM_CHECK_CONDITION = 6,       /* MDL_CHECK_CONDITION with a sense key and code. The disk
                                             does not execute the command. INFORMATION is the first
                                             of the fault's blocks that the command names. */
    MDL_MEDIUM_MOVES_ONLY = 7,            /* MDL_GOOD, but a READ, WRITE or WRITE SAME moves only
                                             its first blocks. With 0 blocks a WRITE is lost. */
    MDL_AFTER_NO_REPLY = 8,               /* MDL_NO_REPLY, after data-in */
    MDL_AFTER_CHECK_CONDITION = 9,        /* MDL_CHECK_CONDITION with a sense key and code, after
                                             data-in, as for a RECOVERED ERROR */
    MDL_AFTER_SHORT_DATA_IN = 10          /* MDL_GOOD, but only the first bytes of data-in arrive.
                                             The reply counts only these. */
} mdl_fault_outcome;

/* A fault, for MDL_ARM: the commands that it meets, and what it does to them. If all fields after
 * `initiators` are 0, each command of these initiators ends with MDL_BUSY. */
typedef struct mdl_fault {
    uint64_t initiators;      /* a mask of the initiators whose commands it meets, not 0 */
    uint64_t lba;             /* the address of the first block that it lies on */
    uint32_t count;           /* the number of these blocks. It meets only commands that read
                                 or write one of them. With 0 it lies on none, and meets commands
                                 of any kind. */
    uint32_t outcome;         /* one of mdl_fault_outcome */
    uint32_t blocks;          /* MDL_MEDIUM_MOVES_ONLY: the number of blocks that are moved.
                                 MDL_AFTER_SHORT_DATA_IN: the number of bytes that arrive. */
    uint16_t skip;            /* the number of commands of each initiator that meet it and pass
                                 first */
    uint16_t times;           /* the number of commands of each initiator after these that do not
                                 pass. With 0 none passes until the fault is taken away. */
    uint8_t has_code;         /* 1 if it meets only commands with an operation code, 0 if all */
    uint8_t code;             /* this operation code, if `has_code` is 1 */
    uint8_t healed_by_writes; /* 1 if a command that overwrites all of its blocks heals them, 0 if none
                                 does; 0 without blocks. If the command reads none of them, the fault
                                 does not meet it. If it ends with MDL_GOOD, the fault is gone. */
    uint8_t key;              /* the sense key that it reports, 0 to 15 but 12 */
    uint8_t asc;              /* the additional sense code that it reports */
    uint8_t ascq;             /* the additional sense code qualifier that it reports */
} mdl_fault;

/* The number of faults that a disk has room for. They have the numbers from 0 on. */
#define MDL_MOST_FAULTS 8u

/* What can happen to a disk between two commands. */
typedef enum mdl_happening_kind {
    MDL_POWER_CYCLE = 0,        /* the disk loses power and gets it back */
    MDL_LOGICAL_UNIT_RESET = 1, /* the disk is reset as a logical unit */
    MDL_TARGET_RESET = 2,       /* the target that the disk belongs to is reset */
    MDL_NEXUS_LOSS = 3,         /* an initiator loses its I_T nexus */
    MDL_ATTENTION = 4,          /* a unit attention condition is established */
    MDL_GROW = 5,               /* the disk gets more blocks */
    MDL_ARM = 6,                /* a fault is armed */
    MDL_DISARM = 7,             /* an armed fault is taken away */
    MDL_DISARM_ALL = 8          /* all armed faults are taken away */
} mdl_happening_kind;

/* What happens to a disk, for mdl_happen. A kind reads only the fields that name it. The record of
 * any kind except MDL_ARM may end before `fault`, as it did before there were faults. */
typedef struct mdl_happening {
    uint32_t kind;       /* one of mdl_happening_kind */
    uint32_t initiator;  /* MDL_NEXUS_LOSS: an initiator of the disk */
    uint64_t initiators; /* MDL_ATTENTION: a mask of initiators */
    uint64_t blocks;     /* MDL_GROW: the number of blocks afterwards, 1 to 2^40 */
    uint8_t asc;         /* MDL_ATTENTION: the additional sense code of the condition */
    uint8_t ascq;        /* MDL_ATTENTION: its additional sense code qualifier */
    uint8_t number;      /* MDL_DISARM: the number of the fault, 0 to 7 */
    mdl_fault fault;     /* MDL_ARM: the fault */
} mdl_happening;

/* Lets something happen to a disk of any profile. No initiator sends it, and it has no reply.
 *     happening  The call reads it.
 * What the record's kind does is below. All that it does not name stays as it was.
 *     - MDL_POWER_CYCLE does what mdl_power_cycle does.
 *     - MDL_LOGICAL_UNIT_RESET makes the saved mode pages the current ones. It establishes 29h/03h,
 *       BUS DEVICE RESET FUNCTION OCCURRED, for each initiator.
 *     - MDL_TARGET_RESET does the same with 29h/02h, SCSI BUS RESET OCCURRED.
 *     - MDL_NEXUS_LOSS reads `initiator`. It establishes 29h/07h, I_T NEXUS LOSS OCCURRED, for that
 *       initiator.
 *     - MDL_ATTENTION reads `asc`, `ascq` and `initiators`. It establishes the condition with this
 *       code for the initiators in the mask. If the mask is 0, nothing changes. The codes are:
 *           28h/00h  29h/00h  29h/02h  29h/03h  29h/04h  29h/07h  2Ah/01h  2Ah/03h
 *           2Ah/04h  2Ah/05h  2Ah/06h  2Ah/09h  38h/07h  3Fh/01h  3Fh/03h  3Fh/0Eh
 *     - MDL_GROW reads `blocks`. The disk has this number of blocks from then on, and the new ones
 *       are not mapped. 2Ah/09h, CAPACITY DATA HAS CHANGED, is established for each initiator. If
 *       the disk has as many blocks already, or more, nothing changes.
 *     - MDL_ARM reads `fault`, and arms it under the lowest number that is free.
 *     - MDL_DISARM reads `number`. The fault with this number is taken away. If there is none,
 *       nothing changes.
 *     - MDL_DISARM_ALL takes all faults away.
 *
 * Faults stay armed through a power cycle and each reset. A fault is gone when it has stopped
 * `times` commands of each initiator in its mask, when a command heals its blocks, or when it is
 * taken away. At each place the disk asks the faults in the order of their numbers. Each fault that
 * meets the command counts it. The first fault that does not let it pass decides, and the disk asks
 * no more.
 *
 * An initiator that has the same condition pending already gets it only once. A 29h condition is
 * reported before all others, and takes the place of a 29h condition of lower precedence. If one of
 * higher precedence is pending, it is not established. The precedence is 29h/00h, 29h/04h, 29h/02h,
 * 29h/03h, 29h/07h, from the highest to the lowest.
 *
 * Errors: the first of these that applies is returned. The disk stays as it was, except with the last.
 * Without a disk the record may name any initiator below MDL_MOST_INITIATORS.
 *     MDL_NULL_POINTER        a pointer is null
 *     MDL_UNKNOWN_HAPPENING   no kind has the number
 *     MDL_UNKNOWN_CONDITION   no condition has the code, for MDL_ATTENTION
 *     MDL_UNKNOWN_FAULT       no outcome has the number, for MDL_ARM
 *     MDL_SENSE_KEY           the outcome reports a sense key, and no key has the number, for
 *                             MDL_ARM
 *     MDL_NO_INITIATOR        the disk does not have the initiator, for MDL_NEXUS_LOSS, or an
 *                             initiator of the mask, for MDL_ATTENTION and MDL_ARM; or the mask is
 *                             0, for MDL_ARM
 *     MDL_FAULT_FLAG          `has_code` or `healed_by_writes` is not 0 or 1, or `count` is 0 and
 *                             `healed_by_writes` is 1, for MDL_ARM
 *     MDL_FAULT_NUMBER        the number of the fault is not 0 to 7, for MDL_DISARM
 *     MDL_BLOCKS              the number of blocks is not 1 to 2^40, for MDL_GROW
 *     MDL_NO_DISK             there is no disk
 *     MDL_FAULTS              a fault is armed under each number, for MDL_ARM
 *     MDL_FILE_FAILED         a call on the disk's file failed, and the disk is dead */
mdl_error mdl_happen(mdl_disk *disk, const mdl_happening *happening);

/* Reads a happening from words, such as "nexus 0" or "fault medium 3/11/00 blocks 10 2 healed". The
 * first word is the verb: power, reset, nexus, grow, attention, fault or heal. The other words are
 * its operands, which docs/SCRIPT.md of the source lists. A line of a script has the same words, on
 * an extended disk. If an attention or a fault is for all initiators, the mask is UINT64_MAX.
 * mdl_happen takes the record, for a disk of any profile. With this record it returns
 * MDL_NO_INITIATOR if the words name an initiator that the disk does not have. It returns no other
 * error except MDL_NO_DISK, MDL_FAULTS, MDL_FILE_FAILED and, for a null disk, MDL_NULL_POINTER.
 *     words      The call reads them, up to a zero. Blanks or tabs are between them.
 *     happening  The call writes it, with its fault.
 * Errors: MDL_NULL_POINTER, MDL_BAD_BYTE, MDL_TOO_MANY_WORDS, MDL_UNKNOWN_VERB or MDL_USAGE. The
 * first that applies is returned. The record then stays as it was. */
mdl_error mdl_read_happening(const char *words, mdl_happening *happening);

/* mdl_faults, mdl_decode and mdl_version return this if there is no text. It is the greatest size_t, so
 * one more is 0. Test for it before you make room for a length and a zero. */
#define MDL_NO_TEXT ((size_t)-1)

/* Writes into `text` which faults are armed, each in a line with its number and the words that arm it.
 * If a fault is for all initiators of the disk, its line names none. Each line below it says for one
 * initiator what is left of `skip` and `times`:
 *     - A base disk has such a line for each initiator of the fault, changed or not. But it has none
 *       if `times` of the record is 0 and nothing is left of `skip`.
 *     - Any other disk has one only for initiators whose counts have changed.
 * Without a fault the text is empty. docs/SCRIPT.md of the source shows the text. On an extended disk
 * the verb `faults` of a script prints it, too.
 * The text is cut to `text_length` bytes, and its last byte there is a zero. Returns the whole length
 * without the zero, as snprintf does.
 *     text  text_length bytes. It may be null if its length is 0.
 *
 * Returns MDL_NO_TEXT if there is no disk, if a pointer is null that must not be, or if memory runs
 * out. Then `text` stays as it was. */
size_t mdl_faults(mdl_disk *disk, char *text, size_t text_length);

/* Says how many initiators the disk has: MDL_INITIATORS or MDL_MOST_INITIATORS. They have the numbers
 * from 0 on, and a transport gives its ports only these. No call changes how many there are.
 *     count  The call writes it.
 * Errors: MDL_NULL_POINTER or MDL_NO_DISK. Then `count` stays as it was. */
mdl_error mdl_initiators(mdl_disk *disk, uint32_t *count);

/* Says which initiators are registered by PERSISTENT RESERVE OUT. Bit i of `mask` is set if
 * initiator i is registered. No other bit is set. A transport keeps the number of such an
 * initiator's port for it. The disk executes nothing, and reports or clears no unit attention.
 *     mask  The call writes it.
 * Errors: MDL_NULL_POINTER or MDL_NO_DISK. Then `mask` stays as it was. */
mdl_error mdl_registered(mdl_disk *disk, uint64_t *mask);

/* Clears the unit attentions of an initiator of the disk, whose port is gone. So the next port with its
 * number begins without them. Everything else stays as it was, registrations and reservation too.
 * Errors: MDL_NULL_POINTER, MDL_NO_DISK, MDL_NO_INITIATOR or MDL_FILE_FAILED. The first that applies is
 * returned. */
mdl_error mdl_forget(mdl_disk *disk, uint32_t initiator);

/* The fields of sense data. A missing field is 0. */
typedef struct mdl_sense {
    uint8_t key;              /* the sense key, at most 15 */
    uint8_t asc;              /* additional sense code */
    uint8_t ascq;             /* additional sense code qualifier */
    uint8_t has_information;  /* 1 if there is an INFORMATION field, 0 if not */
    uint8_t has_pointer;      /* 1 if there is a field pointer, 0 if not */
    uint8_t in_command;       /* 1 if it points into the CDB, 0 if into the parameter list */
    uint16_t byte;            /* the byte in error, from 0 */
    uint64_t information;     /* this disk puts a logical block address there */
} mdl_sense;

/* Reads the fields of `length` bytes of sense data, in fixed or descriptor format.
 *     sense   The call reads it. It may be null if `length` is 0.
 *     fields  The call writes them.
 * Errors: MDL_NULL_POINTER, or MDL_UNREADABLE, even for a deferred error and for 0 bytes. Then
 * `fields` stay as they were. */
mdl_error mdl_read_sense(const uint8_t *sense, size_t length, mdl_sense *fields);

/* Returns the exit status that the tools of sg3_utils have for a reply. docs/SCRIPT.md of the
 * source lists the differences under "Exit status".
 *     reply  a reply that mdl_execute has written. Null is allowed, and returns 99, as a reply with
 *            an unknown status and no sense data does. */
int mdl_exit_status(const mdl_reply *reply);

/* The kinds of answers that mdl_decode prints. `show` and the tools of a script print the same
 * texts, which docs/SCRIPT.md of the source shows. */
typedef enum mdl_kind {
    MDL_NOTHING = 0,           /* bytes that are not printed */
    MDL_HEX = 1,               /* any bytes, in lines of sixteen */
    MDL_INQUIRY = 2,           /* standard INQUIRY data */
    MDL_VPD = 3,               /* a page of vital product data */
    MDL_MODES_6 = 4,           /* mode parameters of MODE SENSE(6) */
    MDL_MODES_10 = 5,          /* mode parameters of MODE SENSE(10) */
    MDL_LBA_STATUS = 6,        /* parameter data of GET LBA STATUS */
    MDL_LBA_STATUS_BRIEF = 7,  /* the same, without its length */
    MDL_KEYS = 8,              /* parameter data of READ KEYS */
    MDL_RESERVATION = 9,       /* parameter data of READ RESERVATION */
    MDL_CAPABILITIES = 10,     /* parameter data of REPORT CAPABILITIES */
    MDL_FULL_STATUS = 11,      /* parameter data of READ FULL STATUS */
    MDL_SENSE = 12,            /* sense data */
    /* A script on an extended disk shows these. The first three are in the place of MDL_INQUIRY,
     * MDL_VPD and MDL_SENSE there, and the last two in the place of MDL_CAPABILITIES and
     * MDL_FULL_STATUS. */
    MDL_INQUIRY_EXTENDED = 13, /* standard INQUIRY data, with version descriptors */
    MDL_VPD_EXTENDED = 14,     /* the same as MDL_VPD, with more pages' fields */
    MDL_SENSE_EXTENDED = 15,   /* sense data, of deferred errors too */
    MDL_LUNS = 16,             /* parameter data of REPORT LUNS */
    MDL_ALL_COMMANDS = 17,     /* SUPPORTED OPERATION CODES, of all */
    MDL_ONE_COMMAND = 18,      /* SUPPORTED OPERATION CODES, of one */
    MDL_TASK_MANAGEMENT = 19,  /* task management functions */
    MDL_LOG_PAGE = 20,         /* a page of LOG SENSE */
    MDL_CAPACITY_10 = 21,      /* data of READ CAPACITY(10) */
    MDL_CAPACITY_16 = 22,      /* data of READ CAPACITY(16) */
    MDL_DEFECTS_10 = 23,       /* data of READ DEFECT DATA(10) */
    MDL_DEFECTS_12 = 24,       /* data of READ DEFECT DATA(12) */
    MDL_CAPABILITIES_EXTENDED = 25, /* the same as MDL_CAPABILITIES, with all fields */
    MDL_FULL_STATUS_EXTENDED = 26   /* the same as MDL_FULL_STATUS, with ALL_TG_PT */
} mdl_kind;

/* Writes into `text` what an answer contains, in lines. The text is cut to `text_length` bytes, and
 * its last byte there is a zero. Returns the whole length without the zero, as snprintf does.
 *     kind     one of mdl_kind
 *     data_in  length bytes, which the call reads. Any bytes have a text.
 *     text     text_length bytes
 * Each of the last two may be null if its length is 0.
 *
 * Returns MDL_NO_TEXT if `kind` is none of mdl_kind, if a pointer is null that must not be, or if
 * memory runs out. Then `text` stays as it was. */
size_t mdl_decode(uint32_t kind, const uint8_t *data_in, size_t length, char *text,
                  size_t text_length);

/* The command of a tool, and the kind of its answer. */
typedef struct mdl_command {
    uint8_t cdb[MDL_CDB_LENGTH]; /* the CDB, and zeros after it */
    uint8_t cdb_length;          /* its length */
    uint32_t kind;               /* the mdl_kind of its data-in, if it ends with MDL_GOOD */
    size_t data_out_length;      /* data-out is at the start of the buffer */
} mdl_command;

/* Plans the command that the words of a tool ask for, such as "sg_vpd -p lbpv". The first word is
 * the name of a tool, such as sg_inq or sg_persist. The other words are its options. docs/SCRIPT.md
 * of the source lists both. A line of a script has the same words after an initiator. The call knows
 * the tools of an extended disk, too, whatever disk there is. mdl_execute sends the command, and
 * mdl_decode prints its data-in.
 *     words     The call reads them, up to a zero. Blanks or tabs are between them.
 *     data_out  data_out_length bytes, at least MDL_DATA_OUT_LENGTH. The call writes data-out to
 *               the first command->data_out_length of them. The bytes after these stay as they
 *               were.
 *     command   The call writes it.
 *
 * Errors: MDL_NULL_POINTER, MDL_BUFFER_TOO_SHORT, MDL_BAD_BYTE, MDL_TOO_MANY_WORDS or
 * MDL_UNKNOWN_TOOL. The first that applies is returned. After these come MDL_USAGE, MDL_EXCLUSIVE
 * or MDL_NUMBER, if the tool refuses its words, and MDL_OUT_OF_MEMORY, if memory runs out. On every
 * error buffer and record stay as they were. */
mdl_error mdl_tool(const char *words, uint8_t *data_out, size_t data_out_length,
                   mdl_command *command);

/* Writes into `text` the version of the library and of the proof, in one line. The text is cut to
 * `text_length` bytes, and its last byte there is a zero. Returns the whole length without the
 * zero, as snprintf does.
 *     text  text_length bytes. It may be null if `text_length` is 0.
 * Returns MDL_NO_TEXT if `text` is null and `text_length` is not 0. */
size_t mdl_version(char *text, size_t text_length);

#ifdef __cplusplus
}
#endif
#endif
