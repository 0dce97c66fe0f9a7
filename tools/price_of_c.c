/*
 * Times durable writes of one block through the library for C: WRITE(10) with FUA, from its COMMAND to
 * its RESPONSE, over dies in memory. The configuration, the writes and the order of the calls are those
 * of crates/bench, which times the same in Rattle; `tools/price_of_c.py` compares the two.
 *
 * usage: price_of_c [WRITES]
 */
/* clock_gettime is of POSIX. */
#define _POSIX_C_SOURCE 199309L
#include <stdio.h>
#include <stdlib.h>
#include <string.h>
#include <time.h>
#include <ufs.h>

enum { DIES = 4, BLOCKS = 64, PAGES = 64, SLOTS = 64, SPARE = 4, UNIT = 8192 };
enum { BLOCK = 4096, TAG = 0, FILL = 0x5A };
/* WRITE(10) and its bit FUA (SBC-3); the transaction code of a RESPONSE (JESD220, 10.5). */
enum { WRITE_10 = 0x2A, FUA = 0x08, RESPONSE = 0x21 };
/* After so many rounds a reply counts as never given. */
enum { ROUNDS = 8 };

static const ufs_config config = {DIES, BLOCKS, PAGES, {1, 0, 0, 0}, SLOTS, SPARE, 0, 1};
static const ufs_unit units[] = {{UNIT, 0, 0}};

static uint8_t data_out[UFS_MESSAGE_BYTES];
static uint8_t reply[UFS_REPLY_BYTES];
static size_t reply_length;
static ufs_job job;

static void check(bool is_right, const char *what)
{
    if (is_right)
        return;
    fprintf(stderr, "price_of_c: %s\n", what);
    exit(1);
}

static bool send(ufs_device *device, const uint8_t *message, size_t length)
{
    return ufs_host(device, message, length) == UFS_OK;
}

static bool hear(ufs_device *device)
{
    return ufs_reply(device, reply, sizeof reply, &reply_length) == UFS_OK;
}

/* A reply, after as much work of the dies from this one on as it needs. */
static bool hear_after_work(ufs_device *device, uint8_t first)
{
    for (uint8_t turn = 0; turn < ROUNDS; turn++) {
        if (hear(device))
            return true;
        uint8_t die = (uint8_t)((first + turn) % DIES);
        if (ufs_take(device, die, &job) == UFS_OK)
            ufs_work(device, die);
    }
    return false;
}

/* A WRITE of one block with FUA; whether it was answered GOOD. */
static bool write_block(ufs_device *device, uint32_t address)
{
    static const uint8_t good[UFS_HEADER_BYTES] = {RESPONSE, 0, 0, TAG};
    uint8_t command[UFS_HEADER_BYTES];
    const uint8_t cdb[] = {WRITE_10, FUA, (uint8_t)(address >> 24), (uint8_t)(address >> 16),
                           (uint8_t)(address >> 8), (uint8_t)address, 0, 0, 1};
    return ufs_command(UFS_TO_DEVICE, 0, TAG, BLOCK, cdb, sizeof cdb, command, sizeof command) == UFS_OK
           && send(device, command, sizeof command) && hear(device)
           && send(device, data_out, sizeof data_out)
           && hear_after_work(device, (uint8_t)(address % DIES)) && reply_length == sizeof good
           && memcmp(reply, good, sizeof good) == 0;
}

static double now(void)
{
    struct timespec time;
    clock_gettime(CLOCK_MONOTONIC, &time);
    return (double)time.tv_sec * 1e9 + (double)time.tv_nsec;
}

int main(int count, char **words)
{
    static uint8_t block[BLOCK];
    ufs_device device = UFS_CLOSED;
    unsigned long writes = count > 1 ? strtoul(words[1], NULL, 10) : UNIT;

    check(writes > 0 && writes <= UNIT, "usage: price_of_c [WRITES], at most 8192");
    memset(block, FILL, sizeof block);
    check(ufs_data_out(0, TAG, 0, block, sizeof block, data_out, sizeof data_out) == UFS_OK, "no DATA OUT");
    check(ufs_open(&device, &config, units, 1) == UFS_OK, "the device did not open");
    ufs_settle(&device, 4);

    double start = now();
    for (uint32_t address = 0; address < writes; address++)
        check(write_block(&device, address), "a write was not GOOD");
    double each = (now() - start) / (double)writes;

    printf("a FUA write of one block: %.0f ns\n", each);
    ufs_close(&device);
    return 0;
}
