/* See print.h. */
#include <inttypes.h>
#include <stdio.h>

#include "print.h"

enum { BYTES_OF_A_ROW = 16 };

static const char *name_of(int status)
{
    switch (status) {
    case MDL_GOOD: return "GOOD";
    case MDL_CHECK_CONDITION: return "CHECK CONDITION";
    case MDL_RESERVATION_CONFLICT: return "RESERVATION CONFLICT";
    case MDL_BUSY: return "BUSY";
    case MDL_TASK_SET_FULL: return "TASK SET FULL";
    default: return "NO REPLY";
    }
}

/* Some keys have no name in sgrun. */
static void print_key(uint8_t key)
{
    static const char *const names[16] = {
        [0x0] = "NO SENSE", [0x5] = "ILLEGAL REQUEST", [0x6] = "UNIT ATTENTION",
        [0x7] = "DATA PROTECT", [0xB] = "ABORTED COMMAND"
    };

    if (names[key & 15])
        printf("  sense: %s", names[key & 15]);
    else
        printf("  sense: KEY %02Xh", key);
}

static void print_sense(const struct answer *answer)
{
    mdl_sense sense;

    if (mdl_read_sense(answer->sense, answer->sense_length, &sense)) {
        puts("  sense: unreadable");
        return;
    }
    print_key(sense.key);
    printf(", %02Xh/%02Xh", sense.asc, sense.ascq);
    if (sense.has_information)
        printf(", information 0x%016" PRIx64, sense.information);
    if (sense.has_pointer)
        printf(", %s byte %u", sense.in_command ? "command" : "list", sense.byte);
    putchar('\n');
}

static void print_bytes(const uint8_t *bytes, size_t length)
{
    size_t at;

    for (at = 0; at < length; at++) {
        if (at % BYTES_OF_A_ROW == 0)
            printf("  %08zx ", at);
        printf(" %02x", bytes[at]);
        if (at % BYTES_OF_A_ROW == BYTES_OF_A_ROW - 1 || at + 1 == length)
            putchar('\n');
    }
}

void print_answer(unsigned long line, const struct answer *answer, int has_bytes)
{
    printf("line %lu: %s\n", line, name_of(answer->status));
    if (answer->status == MDL_CHECK_CONDITION)
        print_sense(answer);
    if (has_bytes)
        print_bytes(answer->sense, answer->sense_length);
    if (answer->status == MDL_GOOD || has_bytes)
        print_bytes(answer->data_in, answer->data_in_length);
}
