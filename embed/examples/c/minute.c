/* The first minute of README, from C: it prints what sgrun prints. */
#include <stdio.h>
#include <string.h>

#include "mehdalung.h"

static uint8_t data_out[MDL_DATA_OUT_LENGTH], data_in[MDL_BUFFER_LENGTH];
static mdl_disk disk = MDL_NONE;
static mdl_reply reply;

/* Sends a command, and prints its status and what its data-in contains. */
static int send(uint32_t initiator, const uint8_t *cdb, size_t cdb_length, const uint8_t *bytes,
                size_t length, uint32_t kind)
{
    static int line;
    static char text[4096];
    mdl_error error = mdl_execute(&disk, initiator, cdb, cdb_length, bytes, length, data_in,
                                  sizeof data_in, &reply);

    line++;
    if (error) {
        printf("line %d: error %d\n", line, (int)error);
        return 99;
    }
    printf("line %d: %s\n", line,
           reply.status == MDL_GOOD              ? "GOOD"
           : reply.status == MDL_CHECK_CONDITION ? "CHECK CONDITION"
                                                 : "RESERVATION CONFLICT");
    if (reply.status == MDL_GOOD
        && mdl_decode(kind, data_in, reply.data_in_length, text, sizeof text) < sizeof text)
        fputs(text, stdout);
    return mdl_exit_status(&reply);
}

/* Sends what words ask a tool for. */
static int tool(uint32_t initiator, const char *words)
{
    mdl_command command;
    mdl_error error = mdl_tool(words, data_out, sizeof data_out, &command);

    if (error) {
        printf("%s: error %d\n", words, (int)error);
        return 99;
    }
    return send(initiator, command.cdb, command.cdb_length, data_out, command.data_out_length,
                command.kind);
}

int main(void)
{
    static const uint8_t request_sense[6] = { 0x03 };
    static const uint8_t write_4[10] = { 0x2A, [8] = 4 }, write_1[10] = { 0x2A, [8] = 1 };
    static const uint8_t zeros[MDL_BLOCK_LENGTH];
    uint8_t blocks[4 * MDL_BLOCK_LENGTH];
    int status;

    memset(blocks, 0xAB, sizeof blocks);
    if (mdl_make(&disk, 4096, 4, NULL) != MDL_OK)
        return 99;
    send(0, request_sense, sizeof request_sense, NULL, 0, MDL_HEX);
    tool(0, "sg_vpd -p lbpv");
    send(0, write_4, sizeof write_4, blocks, sizeof blocks, MDL_NOTHING);
    tool(0, "sg_unmap -l 1 -n 2");
    tool(0, "sg_get_lba_status -b -m 72");
    tool(0, "sg_persist -G -S a1");
    tool(0, "sg_persist -R -K a1 -T 1");
    send(1, request_sense, sizeof request_sense, NULL, 0, MDL_HEX);
    status = send(1, write_1, sizeof write_1, zeros, sizeof zeros, MDL_NOTHING);
    mdl_free(&disk);
    return status;
}
