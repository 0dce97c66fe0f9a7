/*
 * This program writes a block with FUA. Then the power goes while another block is programmed. The
 * first block is there afterwards, and the other one is not. At last the dies are saved as an
 * image, and a second device reads the block from it. The status is 0 only if all is right.
 *
 * `make c-example` builds and runs it.
 */
#include <stdio.h>
#include <stdlib.h>
#include <string.h>
#include <ufs.h>

enum { BLOCK = 4096, HEADER = UFS_HEADER_BYTES };

/* The transaction codes (JESD220, 10.5) and operation codes (SBC) that are used here. */
enum { RESPONSE = 0x21, DATA_IN = 0x22, READY_TO_TRANSFER = 0x31 };
enum { READ_10 = 0x28, WRITE_10 = 0x2A, FUA = 0x08 };

/* The configuration of examples/write_read.txt. */
static const ufs_config config = {4, 16, 64, {1, 0, 0, 0}, 64, 4, 0, 1};
static const ufs_unit units[] = {{256, 0, 0}, {64, 1, 0}, {64, 2, 0}};
enum { UNITS = sizeof units / sizeof units[0] };

static uint8_t reply[UFS_REPLY_BYTES];
static size_t reply_length;

/* If a call did not go well, this tells what it answered, and ends the program. */
static void expect(uint32_t fault, const char *what)
{
    char text[128];
    if (fault == UFS_OK)
        return;
    ufs_fault_text(fault, text, sizeof text);
    fprintf(stderr, "power_cut: %s: %s\n", what, text);
    exit(1);
}

static void check(bool is_right, const char *what)
{
    if (is_right)
        return;
    fprintf(stderr, "power_cut: %s\n", what);
    exit(1);
}

/* A COMMAND for one block of unit 0. */
static void command(ufs_device *device, uint8_t tag, uint8_t operation, uint8_t second,
                    uint8_t address)
{
    uint8_t message[UFS_HEADER_BYTES];
    const uint8_t cdb[] = {operation, second, 0, 0, 0, address, 0, 0, 1};
    const uint8_t flags = operation == READ_10 ? UFS_FROM_DEVICE : UFS_TO_DEVICE;
    expect(ufs_command(flags, 0, tag, BLOCK, cdb, sizeof cdb, message, sizeof message),
           "a COMMAND");
    expect(ufs_host(device, message, sizeof message), "COMMAND");
}

/* A DATA OUT with a block. Each of its bytes is this one. */
static void data_out(ufs_device *device, uint8_t tag, uint8_t byte)
{
    static uint8_t block[BLOCK];
    static uint8_t message[UFS_MESSAGE_BYTES];
    memset(block, byte, sizeof block);
    expect(ufs_data_out(0, tag, 0, block, sizeof block, message, sizeof message), "a DATA OUT");
    expect(ufs_host(device, message, sizeof message), "DATA OUT");
}

/* The next reply, which has this transaction code and this tag. */
static void hear(ufs_device *device, uint8_t code, uint8_t tag)
{
    expect(ufs_reply(device, reply, sizeof reply, &reply_length), "a reply");
    check(reply[0] == code && reply[3] == tag, "another reply came");
}

/* Begins to write a block with FUA. Each of its bytes is this one. */
static void begin_write(ufs_device *device, uint8_t tag, uint8_t address, uint8_t byte)
{
    command(device, tag, WRITE_10, FUA, address);
    hear(device, READY_TO_TRANSFER, tag);
    data_out(device, tag, byte);
    check(ufs_reply(device, reply, sizeof reply, &reply_length) == UFS_NOTHING,
          "a write was answered early");
}

/* A RESPONSE that says GOOD. */
static void hear_good(ufs_device *device, uint8_t tag)
{
    ufs_answer answer;
    hear(device, RESPONSE, tag);
    expect(ufs_response(reply, reply_length, &answer), "a RESPONSE");
    check(answer.tag == tag && answer.response == 0 && answer.status == 0 && answer.residual == 0,
          "a command was not answered GOOD");
}

/* Reads a block. Each of its bytes has to be this one. */
static void expect_block(ufs_device *device, uint8_t tag, uint8_t address, uint8_t byte)
{
    command(device, tag, READ_10, 0, address);
    expect(ufs_settle(device, 4), "the read of a page");
    hear(device, DATA_IN, tag);
    check(reply_length == HEADER + BLOCK, "a DATA IN has another length");
    for (size_t at = HEADER; at < reply_length; at++)
        check(reply[at] == byte, "a block was not read as it has to be");
    hear_good(device, tag);
}

/* A WRITE past the end of the unit is refused: CHECK CONDITION, and LBA out of range (5/21/00). */
static void refused_write(ufs_device *device, uint8_t tag)
{
    uint8_t message[UFS_HEADER_BYTES];
    const uint8_t cdb[] = {WRITE_10, 0, 0, 0, 1, 0, 0, 0, 1};
    ufs_answer answer;
    check(ufs_command(0x10, 0, tag, BLOCK, cdb, sizeof cdb, message, sizeof message)
              == UFS_BAD_NUMBER,
          "a COMMAND was written with other flags");
    expect(ufs_command(UFS_TO_DEVICE, 0, tag, BLOCK, cdb, sizeof cdb, message, sizeof message),
           "a COMMAND");
    expect(ufs_host(device, message, sizeof message), "COMMAND");
    hear(device, RESPONSE, tag);
    expect(ufs_response(reply, reply_length, &answer), "a RESPONSE");
    check(answer.response == 1 && answer.status == 2 && answer.sense_key == 5
              && answer.sense_code == 0x21 && answer.sense_qualifier == 0,
          "a WRITE past the end was not refused so");
}

/* A die takes the program of a block, and does not do it yet. */
static uint8_t take_program(ufs_device *device)
{
    static ufs_job job;
    for (uint8_t die = 0; die < config.dies; die++) {
        if (ufs_take(device, die, &job) != UFS_OK)
            continue;
        check(job.kind == UFS_PROGRAM && job.die == die, "another job was due");
        return die;
    }
    check(false, "no program was due");
    return 0;
}

/* The power goes while a die programs a page. The page is torn. */
static void cut_power(ufs_device *device)
{
    uint8_t lefts[4] = {UFS_LEFT_OLD, UFS_LEFT_OLD, UFS_LEFT_OLD, UFS_LEFT_OLD};
    lefts[take_program(device)] = UFS_LEFT_TORN;
    expect(ufs_stop(device, lefts, sizeof lefts), "the stop");
    expect(ufs_settle(device, 64), "mending");
}

/* The image of the dies, which the caller frees. */
static uint8_t *save(ufs_device *device, size_t *length)
{
    uint64_t bytes = 0;
    expect(ufs_image_length(device, &bytes), "the length of the image");
    *length = (size_t)bytes;
    uint8_t *image = malloc(*length);
    check(image != NULL, "no memory for the image");
    check(ufs_save(device, image, *length - 1) == UFS_NO_ROOM,
          "an image went into too little room");
    expect(ufs_save(device, image, *length), "saving");
    return image;
}

int main(void)
{
    ufs_device device = UFS_CLOSED;
    ufs_device other = UFS_CLOSED;
    size_t length;

    check(ufs_turn(&device) == UFS_NO_DEVICE, "a handle that is closed took a step");
    expect(ufs_open(&device, &config, units, UNITS), "opening");
    check(ufs_open(&device, &config, units, UNITS) == UFS_IS_OPEN, "a device was opened twice");
    expect(ufs_settle(&device, 4), "the first mark");

    begin_write(&device, 7, 255, 0x5A);
    expect(ufs_settle(&device, 2), "the program of the block");
    hear_good(&device, 7);

    begin_write(&device, 8, 254, 0xA5);
    cut_power(&device);
    expect_block(&device, 9, 255, 0x5A);
    expect_block(&device, 10, 254, 0x00);
    refused_write(&device, 11);

    uint8_t *image = save(&device, &length);
    expect(ufs_close(&device), "closing");
    check(ufs_open_image(&other, &config, units, UNITS, image, length - 1) == UFS_BAD_IMAGE,
          "an image was read that is cut off");
    expect(ufs_open_image(&other, &config, units, UNITS, image, length), "opening over the image");
    free(image);
    expect(ufs_settle(&other, 64), "mending");
    expect_block(&other, 12, 255, 0x5A);
    expect(ufs_close(&other), "closing the other device");
    check(ufs_close(&other) == UFS_NO_DEVICE, "a device was closed twice");

    puts("the block that was answered is there, and the one that was not is not");
    return 0;
}
