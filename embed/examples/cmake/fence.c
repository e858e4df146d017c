/* A test of a fence: while initiator 0 holds a reservation, initiator 1 writes nothing. */
#include <mehdalung.h>
#include <stdio.h>

static mdl_disk disk = MDL_NONE;
static uint8_t data_in[MDL_BUFFER_LENGTH];
static int failed;

/* Reports the line of an expectation that does not hold. */
#define EXPECT(holds) ((holds) ? (void)0 : (void)(failed = 1, printf("line %d: %s\n", __LINE__, #holds)))

/* Executes the words of a tool, and returns its status. */
static int run(uint32_t initiator, const char *words)
{
    uint8_t data_out[MDL_DATA_OUT_LENGTH];
    mdl_command c;
    mdl_reply reply;

    if (mdl_tool(words, data_out, sizeof data_out, &c)
        || mdl_execute(&disk, initiator, c.cdb, c.cdb_length, data_out, c.data_out_length, data_in,
                       sizeof data_in, &reply))
        return -1;
    return reply.status;
}

/* Writes block 0 by WRITE(10), and returns the status. */
static int write_block(uint32_t initiator)
{
    static const uint8_t block[MDL_BLOCK_LENGTH] = { 1 };
    const uint8_t cdb[10] = { 0x2A, [8] = 1 };
    mdl_reply reply;

    if (mdl_execute(&disk, initiator, cdb, 10, block, sizeof block, NULL, 0, &reply)) return -1;
    return reply.status;
}

int main(void)
{
    if (mdl_make(&disk, 4096, 4, NULL)) return 1;
    /* the first command of each initiator reports the unit attention of a new disk */
    EXPECT(run(0, "sg_turs") == MDL_CHECK_CONDITION);
    EXPECT(run(1, "sg_turs") == MDL_CHECK_CONDITION);
    EXPECT(write_block(1) == MDL_GOOD);
    EXPECT(run(0, "sg_persist -o -G -S a1") == MDL_GOOD);
    EXPECT(run(0, "sg_persist -o -R -K a1 -T 1") == MDL_GOOD);
    EXPECT(write_block(0) == MDL_GOOD);
    EXPECT(write_block(1) == MDL_RESERVATION_CONFLICT);
    mdl_free(&disk);
    return failed;
}
