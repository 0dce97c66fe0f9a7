/*
 * This program has dies of its own, which are arrays here, and does the jobs that the device gives
 * them. One program of a page fails. The block that was written is read back all the same. The
 * status is 0 only if all is right.
 *
 * `make c-example` builds and runs it.
 */
#include <stdio.h>
#include <stdlib.h>
#include <string.h>
#include <ufs.h>

enum { BLOCK = 4096, HEADER = 32, DIES = 2, BLOCKS = 16, PAGES = 64 };

static const ufs_config config = {DIES, BLOCKS, PAGES, {1, 0, 0, 0}, 64, 4, 0, 1};
static const ufs_unit units[] = {{256, 0, 0}};

/* What the dies hold, as long as the power is on. */
static uint8_t dies[DIES][BLOCKS][PAGES][UFS_PAGE_BYTES];
static uint8_t reply[UFS_REPLY_BYTES];
static size_t reply_length;
/* How many programs of pages came so far, and which of them fails, counted from 0. */
static unsigned programs;
static const unsigned failing = 1;

static void check(bool is_right, const char *what)
{
    if (is_right)
        return;
    fprintf(stderr, "own_dies: %s\n", what);
    exit(1);
}

/* Does the job, and tells the device how it ended. */
static void do_job(ufs_device *device, const ufs_job *job)
{
    uint8_t *page = dies[job->die][job->block][job->page];
    uint8_t how = UFS_DONE;

    switch (job->kind) {
    case UFS_READ:
        check(ufs_done(device, job->die, UFS_READ_DONE, page, UFS_PAGE_BYTES - 1) == UFS_BAD_NUMBER,
              "a page that is too short was taken");
        check(ufs_done(device, job->die, UFS_DONE, page, 0) == UFS_NO_JOB,
              "a read ended as a program");
        check(ufs_done(device, job->die, UFS_READ_DONE, page, UFS_PAGE_BYTES) == UFS_OK,
              "a read did not end");
        return;
    case UFS_PROGRAM:
        if (programs++ == failing) {
            how = UFS_FAILED;
            break;
        }
        memcpy(page, job->body, sizeof job->body);
        memcpy(page + sizeof job->body, job->spare, sizeof job->spare);
        break;
    case UFS_ERASE:
        memset(dies[job->die][job->block], 0xFF, sizeof dies[job->die][job->block]);
        break;
    default:
        check(false, "another kind of job was given");
    }
    check(ufs_done(device, job->die, how, page, 0) == UFS_OK, "a job did not end");
    check(ufs_done(device, job->die, how, page, 0) == UFS_NO_JOB, "a job ended twice");
}

/* So many rounds. In a round the device takes a turn, and each die does a job. */
static void settle(ufs_device *device, unsigned rounds)
{
    static ufs_job job;
    for (unsigned round = 0; round < rounds; round++) {
        ufs_turn(device);
        for (uint8_t die = 0; die < DIES; die++)
            if (ufs_take(device, die, &job) == UFS_OK)
                do_job(device, &job);
    }
}

/* A COMMAND for block 9 of unit 0: READ(10), or WRITE(10) with FUA. */
static void command(ufs_device *device, uint8_t tag, bool is_write)
{
    uint8_t message[HEADER] = {0x01};
    message[1] = is_write ? 0x20 : 0x40;
    message[3] = tag;
    message[14] = BLOCK >> 8;
    message[16] = is_write ? 0x2A : 0x28;
    message[17] = is_write ? 0x08 : 0x00;
    message[21] = 9;
    message[24] = 1;
    check(ufs_host(device, message, sizeof message) == UFS_OK, "a COMMAND was not taken");
    check(ufs_host(device, message, sizeof message) == UFS_TAG_IN_USE, "a task tag was used twice");
}

static void data_out(ufs_device *device, uint8_t tag)
{
    static uint8_t message[HEADER + BLOCK];
    message[0] = 0x02;
    message[3] = tag;
    message[10] = BLOCK >> 8;
    message[18] = BLOCK >> 8;
    memset(message + HEADER, 0x42, BLOCK);
    check(ufs_host(device, message, sizeof message) == UFS_OK, "DATA OUT was not taken");
}

/* The next reply, which has this transaction code. */
static void hear(ufs_device *device, uint8_t code)
{
    check(ufs_reply(device, reply, sizeof reply, &reply_length) == UFS_OK, "no reply was due");
    check(reply[0] == code, "another reply came");
}

/* The MAC of two frames is HMAC-SHA-256 (RFC 2104) over the last 284 bytes of each. Python's module
 * hmac computed the one that is expected here. */
static void check_mac(void)
{
    static const uint8_t expected[32] = {
        0x74, 0x15, 0xFF, 0xBB, 0x61, 0x39, 0xC2, 0xBD, 0x61, 0x73, 0x9B, 0x2F,
        0x29, 0xCD, 0xD0, 0x13, 0x1D, 0x0D, 0x6F, 0xE4, 0xEC, 0x13, 0x12, 0xA3,
        0x79, 0xC4, 0x8A, 0x68, 0xFE, 0x47, 0xED, 0xE5
    };
    uint8_t key[32], frames[2 * 512], mac[32];
    for (uint8_t at = 0; at < sizeof key; at++)
        key[at] = at;
    memset(frames, 0x11, 512);
    memset(frames + 512, 0x22, 512);
    check(ufs_rpmb_mac(key, sizeof key, frames, sizeof frames - 1, mac, sizeof mac)
              == UFS_BAD_NUMBER,
          "a part of a frame was covered");
    check(ufs_rpmb_mac(key, sizeof key, frames, sizeof frames, mac, sizeof mac) == UFS_OK,
          "a MAC was not made");
    check(memcmp(mac, expected, sizeof mac) == 0, "a MAC is another one");
}

int main(void)
{
    ufs_device device = UFS_CLOSED;
    uint8_t old = UFS_LEFT_OLD;
    char text[8];

    check_mac();
    memset(dies, 0xFF, sizeof dies);
    check(ufs_open(&device, &config, units, 1) == UFS_OK, "the device did not open");
    check(ufs_own_dies(&device) == UFS_OK, "the dies were not given up");
    check(ufs_work(&device, 0) == UFS_NO_JOB, "a die in memory did a job");
    check(ufs_stop(&device, &old, 1) == UFS_HAS_OWN_DIES, "dies in memory lost their power");
    check(ufs_save(&device, reply, sizeof reply) == UFS_HAS_OWN_DIES, "dies in memory were saved");

    settle(&device, 16);
    command(&device, 1, true);
    hear(&device, 0x31);
    data_out(&device, 1);
    settle(&device, 64);
    hear(&device, 0x21);
    check(reply[7] == 0, "the write was not answered GOOD");
    check(programs > failing, "no program failed");

    command(&device, 2, false);
    settle(&device, 4);
    hear(&device, 0x22);
    check(reply_length == HEADER + BLOCK, "a DATA IN has another length");
    for (size_t at = HEADER; at < reply_length; at++)
        check(reply[at] == 0x42, "the block was not read as it was written");
    hear(&device, 0x21);
    check(ufs_fault_text(UFS_NOTHING, text, sizeof text) == 7 && strcmp(text, "nothing") == 0,
          "a text was not cut");
    check(ufs_close(&device) == UFS_OK, "the device did not close");

    puts("the block is there, although a program failed");
    return 0;
}
