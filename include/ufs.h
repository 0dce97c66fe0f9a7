/*
 * ufs.h: a Universal Flash Storage device in software, from C.
 *
 * A program holds a device by a handle, a `ufs_device`. No call waits. A call answers a fault:
 * UFS_OK, or why it did nothing. `ufs_fault_text` says each in words. Under each call stand the
 * faults that it answers.
 *
 * Promised, and proved, of any list of calls on a handle with dies in memory, new ones or those of an
 * image that a handle of the same configuration saved (no law has `ufs_settle`, which makes turns and
 * jobs): after each power cut the device holds the effect of the first k commands
 * that it accepted, for some k, and every command that was acknowledged as durable is among them.
 * The caller owes the rules below, and an image in the bytes in which it was saved.
 *
 * The library does not check these rules, so the caller has to keep them:
 *
 * - No pointer is NULL, not even one to an empty range. A pointer leads to as many objects as the
 *   call says. During the call nothing else writes this memory, and nothing else reads it unless the
 *   pointer is to const.
 * - A handle begins as UFS_CLOSED. It may be moved, but not copied: of two copies only one may be
 *   used from then on. Its fields belong to the library.
 * - Calls on a handle come one at a time, and all from the thread that opened it. Other threads may
 *   use other handles at the same time.
 * - No call comes from a signal handler, or in the child of fork() of a process with threads.
 * - malloc, realloc and free belong to one allocator. It aligns a block to each power of two up to
 *   16 that divides the block's size.
 *
 * Messages and replies are UPIUs as JESD220 has them (10.5 to 10.7).
 */
#ifndef UFS_H
#define UFS_H

#include <stdbool.h>
#include <stddef.h>
#include <stdint.h>

#ifdef __cplusplus
extern "C" {
#endif

/* A handle, which holds a device or none. */
typedef struct ufs_device {
    void *at;
    bool is_open;
} ufs_device;

/* A handle begins as this, and holds no device then. */
#define UFS_CLOSED { NULL, false }

/* What a call answers. */
enum ufs_fault {
    UFS_OK = 0,
    UFS_NO_DEVICE = 1,        /* the handle holds no device */
    UFS_IS_OPEN = 2,          /* the handle holds a device already */
    UFS_NO_MEMORY = 3,        /* memory was refused */
    UFS_RANGE = 4,            /* a number of the configuration is out of its range */
    UFS_TOO_LITTLE_SPARE = 5, /* units, RPMB areas and slots need more blocks than there are */
    UFS_TWO_BOOT_UNITS = 6,   /* two units have the same boot number */
    UFS_OTHER_CONFIG = 7,     /* the dies hold another configuration */
    UFS_BAD_IMAGE = 8,        /* the bytes are no image of dies of these sizes */
    UFS_NOTHING = 9,          /* nothing is due */
    UFS_NO_JOB = 10,          /* the die has no job in flight, or none that can end like this */
    UFS_NO_ROOM = 11,         /* the buffer has too little room */
    UFS_BAD_NUMBER = 12,      /* the call does not know a number that it was given */
    UFS_HAS_OWN_DIES = 13,    /* the dies are the caller's own */
    /* Why a device does not take a message. The lowest one that applies is told. */
    UFS_MESSAGE_SHORT = 21,   /* fewer than 32 bytes */
    UFS_MESSAGE_LENGTH = 22,  /* the data segment's length does not fit the kind or the bytes */
    UFS_MESSAGE_DIGEST = 23,  /* it asks for a digest, which this device does not have */
    UFS_MESSAGE_EHS = 24,     /* it has an extra header segment, which this device does not take */
    UFS_MESSAGE_CODE = 25,    /* no message of a host has this transaction code */
    UFS_MESSAGE_RESERVED = 26, /* a reserved byte or bit is set, or a field is outside its set */
    UFS_TAG_IN_USE = 27,      /* the task tag is in use */
    UFS_NOT_ASKED_FOR = 28,   /* no data with this tag, LUN, offset and count were asked for */
    UFS_BACKLOG = 29          /* 32 short exchanges are open */
};

/* The numbers of a configuration, without its units. docs/FORMATS.md has the range of each. */
typedef struct ufs_config {
    uint8_t dies;
    uint16_t blocks; /* of a die */
    uint16_t pages;  /* of a block */
    uint8_t rpmb[4]; /* the area of each RPMB region in steps of 128 KiB; 0 if it is not there */
    uint16_t slots;  /* how many blocks the write cache has room for */
    uint16_t spare;  /* how many blocks may be bad before the device refuses writes */
    uint8_t profile; /* 0: the device of a few commands; 1: one that tells more, see ufs_open */
    uint64_t serial; /* the serial number, which profile 1 alone tells */
} ufs_config;

/* A unit: its blocks of 4096 bytes, its boot number (0 none, 1 A, 2 B), and how it is protected
 * (0 never, 1 by fPowerOnWPEn, 2 by fPermanentWPEn). */
typedef struct ufs_unit {
    uint32_t blocks;
    uint8_t boot;
    uint8_t protect;
} ufs_unit;

enum {
    UFS_PAGE_BYTES = 4192,   /* a page: 4096 bytes, and then 96 spare ones */
    UFS_REPLY_BYTES = 4128,  /* the longest reply */
    UFS_UNITS = 8            /* a configuration has at most so many units */
};

/* What a die has to do. */
enum ufs_job_kind {
    UFS_READ = 1,    /* read the page */
    UFS_PROGRAM = 2, /* program the page with these bytes */
    UFS_ERASE = 3    /* erase the block */
};

/* A job of a die. An erase has `page` 0. A program brings `body` and `spare`; other jobs leave
 * these as they were. */
typedef struct ufs_job {
    uint8_t kind;
    uint8_t die;
    uint16_t block;
    uint16_t page;
    uint8_t body[4096];
    uint8_t spare[96];
} ufs_job;

/* How a job ended on a die of the caller's own. */
enum ufs_outcome {
    UFS_READ_DONE = 0,   /* a read found this page */
    UFS_READ_FAILED = 1, /* a read failed */
    UFS_DONE = 2,        /* a program or an erase is done */
    UFS_FAILED = 3       /* a program or an erase failed: the block is bad from now on */
};

/* What a program or an erase leaves in its page, or in each page of its block: the power went while
 * it was under way, or it failed. */
enum ufs_left {
    UFS_LEFT_OLD = 0, /* what was there before */
    UFS_LEFT_NEW = 1, /* what the job was to make of it */
    UFS_LEFT_TORN = 2 /* the same, but for one bit of the check of each page, which so fails */
};

/*
 * Opens a device over new dies in memory. It takes all memory of the device: of the other calls
 * only `ufs_open_image`, `ufs_stop` and `ufs_save` may be refused memory.
 *
 * A device of profile 1 has an attention for each LUN after each opening, that of a stop too, and
 * after a logical unit reset of the LUN. It refuses the first command to the LUN by 6/29/00 (CHECK
 * CONDITION, UNIT ATTENTION), and ends the attention. INQUIRY and REPORT LUNS leave it, and REQUEST
 * SENSE tells it as data and ends it. So send each LUN a TEST UNIT READY first.
 *
 * UFS_IS_OPEN where the handle holds a device; else UFS_RANGE (also of more than UFS_UNITS units),
 * UFS_TOO_LITTLE_SPARE, UFS_TWO_BOOT_UNITS, the first that applies; else UFS_NO_MEMORY. The handle
 * holds then what it held.
 */
uint32_t ufs_open(ufs_device *device, const ufs_config *config, const ufs_unit *units,
                  size_t unit_count);

/*
 * Opens a device over the dies of an image of `length` bytes, which `ufs_save` or `ufsim image
 * save` wrote. The device first mends: it puts right what a stop left there. So let it settle.
 *
 * As ufs_open; and after them UFS_BAD_IMAGE and UFS_OTHER_CONFIG.
 */
uint32_t ufs_open_image(ufs_device *device, const ufs_config *config, const ufs_unit *units,
                        size_t unit_count, const uint8_t *image, size_t length);

/*
 * Closes the device, and frees its memory and its dies in memory. The handle holds no device
 * afterwards.
 *
 * UFS_NO_DEVICE.
 */
uint32_t ufs_close(ufs_device *device);

/*
 * Hands the device a message of `length` bytes. A READ, or a WRITE with FUA, is answered only after
 * jobs of the dies.
 *
 * UFS_NO_DEVICE; UFS_MESSAGE_SHORT to UFS_BACKLOG, if the device does not take the message. Nothing
 * changes then.
 */
uint32_t ufs_host(ufs_device *device, const uint8_t *message, size_t length);

/*
 * Takes a reply that is due. It writes the reply to the beginning of `into`, and its length to
 * `*length`. The replies of one task tag come in order.
 *
 * UFS_NO_DEVICE; UFS_NOTHING if none is due; UFS_NO_ROOM if `room` is below UFS_REPLY_BYTES. `into`
 * and `*length` stay as they are then.
 */
uint32_t ufs_reply(ufs_device *device, uint8_t *into, size_t room, size_t *length);

/*
 * The device takes one step of its own: of its mending after an opening, or of a collection.
 *
 * UFS_NO_DEVICE; UFS_NOTHING if none is due.
 */
uint32_t ufs_turn(ufs_device *device);

/*
 * Asks for the next job of the die, which is in flight from then on. A die in memory does it in
 * `ufs_work`. A die of the caller's own does it outside the library, and `ufs_done` tells how it
 * ended.
 *
 * UFS_NO_DEVICE; UFS_NOTHING if no job is due for the die, if it has one in flight, or if the
 * device has no such die. `*job` stays as it is then.
 */
uint32_t ufs_take(ufs_device *device, uint8_t die, ufs_job *job);

/*
 * Ends the job in flight of a die of the caller's own. `how` is a `ufs_outcome`. If a read is done,
 * `page` has its UFS_PAGE_BYTES bytes; otherwise nobody looks at `page`.
 *
 * UFS_NO_DEVICE; UFS_NO_JOB if the dies are in memory, if the die has no job in flight, or if its
 * job is of another kind; UFS_BAD_NUMBER if `how` is no outcome, or if the page of a read has
 * another length. Nothing changes then.
 */
uint32_t ufs_done(ufs_device *device, uint8_t die, uint8_t how, const uint8_t *page, size_t length);

/*
 * From now on the dies are the caller's own. They have to hold what the dies in memory hold, which
 * are freed. So before this call open the device over new dies if yours are blank (each byte FFh),
 * or else over an image of yours.
 *
 * UFS_NO_DEVICE.
 */
uint32_t ufs_own_dies(ufs_device *device);

/*
 * The die in memory does its job in flight, and the device hears of it.
 *
 * UFS_NO_DEVICE; UFS_NO_JOB if it has none, or if the dies are the caller's own.
 */
uint32_t ufs_work(ufs_device *device, uint8_t die);

/*
 * The job in flight of the die in memory fails, and the device is told. The block of a program or
 * an erase is bad from then on, and `left` is a `ufs_left` that says what its page, or each page of
 * the block, holds then. A read that fails changes nothing on the die.
 *
 * UFS_NO_DEVICE; UFS_NO_JOB where it has none, or the dies are the caller's own; UFS_BAD_NUMBER
 * where `left` is none. Nothing changes then.
 */
uint32_t ufs_fail(ufs_device *device, uint8_t die, uint8_t left);

/*
 * Plays so many rounds. In a round the device takes a turn, and then each die in memory takes a
 * job, if it has none in flight, and does it. A new device is ready after some four rounds.
 *
 * UFS_NO_DEVICE.
 */
uint32_t ufs_settle(ufs_device *device, uint16_t rounds);

/*
 * The power goes away and comes back. `lefts[d]` is a `ufs_left`, and says what die d in memory
 * leaves of a program or an erase in flight. A die beyond `count` keeps what it held. The device is
 * then opened again over the dies, and mends, so let it settle.
 *
 * UFS_NO_DEVICE; UFS_HAS_OWN_DIES; UFS_BAD_NUMBER if one of the numbers is no `ufs_left`, or if
 * there are more than 256. Nothing changes then. After UFS_NO_MEMORY the power stays off: the handle
 * keeps the dies as the stop left them, and answers UFS_NO_DEVICE to all but `ufs_image_length`,
 * `ufs_save`, `ufs_close` and a further `ufs_stop`, which opens the device if it gets the memory.
 */
uint32_t ufs_stop(ufs_device *device, const uint8_t *lefts, size_t count);

/*
 * Tells how many bytes the image of the dies has.
 *
 * UFS_NO_DEVICE. `*length` stays as it is then.
 */
uint32_t ufs_image_length(ufs_device *device, uint64_t *length);

/*
 * Saves the dies in memory as an image (docs/FORMATS.md) at the beginning of `into`. In the image a
 * job in flight has done nothing yet. The device goes on.
 *
 * UFS_NO_DEVICE, UFS_HAS_OWN_DIES, UFS_NO_ROOM, UFS_NO_MEMORY. `into` stays as it is then.
 */
uint32_t ufs_save(ufs_device *device, uint8_t *into, size_t room);

/* Which way the data of a COMMAND go. */
enum ufs_flags {
    UFS_NO_DATA = 0x00,
    UFS_TO_DEVICE = 0x20,  /* a write */
    UFS_FROM_DEVICE = 0x40 /* a read */
};

enum {
    UFS_MESSAGE_BYTES = 4128, /* the longest message of a host */
    UFS_HEADER_BYTES = 32,    /* a message without data */
    UFS_FRAME_BYTES = 512     /* a frame of the replay protected memory block */
};

/*
 * Writes a COMMAND (JESD220, 10.7.1) into the first UFS_HEADER_BYTES bytes of `into`. `flags` is a
 * `ufs_flags`, and `expected` counts the bytes of data. A CDB of fewer than 16 bytes is padded with
 * zeros.
 *
 * UFS_BAD_NUMBER where the flags are none of these, or the CDB has more than 16 bytes; else
 * UFS_NO_ROOM where `room` is too small. `into` stays as it is then.
 *
 * The calls below write the COMMANDs that this device knows. Each of them, and each other call that
 * writes a message, answers UFS_NO_ROOM where `room` is too small, and leaves `into` as it is then.
 */
uint32_t ufs_command(uint8_t flags, uint8_t lun, uint8_t tag, uint32_t expected,
                     const uint8_t *cdb, size_t cdb_length, uint8_t *into, size_t room);

/*
 * Writes a DATA OUT (JESD220, 10.7.3): a header of UFS_HEADER_BYTES bytes, the data, and zeros up
 * to a multiple of four. `offset` says where these bytes begin in the data of the command.
 *
 * UFS_BAD_NUMBER where the data are none or more than 4096 bytes; else UFS_NO_ROOM. `into` stays as
 * it is then.
 */
uint32_t ufs_data_out(uint8_t lun, uint8_t tag, uint32_t offset, const uint8_t *data,
                      size_t length, uint8_t *into, size_t room);

/*
 * Writes the COMMAND of a READ(10), or of a WRITE(10), of `blocks` blocks of 4096 bytes from
 * `address` on: UFS_HEADER_BYTES bytes. With `fua` the blocks are durable once the WRITE is
 * answered.
 */
uint32_t ufs_read(uint8_t lun, uint8_t tag, uint32_t address, uint16_t blocks, uint8_t *into,
                  size_t room);
uint32_t ufs_write(uint8_t lun, uint8_t tag, uint32_t address, uint16_t blocks, bool fua,
                   uint8_t *into, size_t room);

/*
 * Writes the COMMAND of a VERIFY(10), of UFS_HEADER_BYTES bytes. A device of profile 1 reads these
 * blocks and sends none: it answers 3/11/00 where one cannot be read. With `compare` (BYTCHK 01) it
 * asks for the host's data block by block (READY TO TRANSFER), compares each block with what was there
 * at the COMMAND, and answers E/1D/00 (MISCOMPARE) at the first one that differs. It writes nothing.
 */
uint32_t ufs_verify(uint8_t lun, uint8_t tag, uint32_t address, uint16_t blocks, bool compare,
                    uint8_t *into, size_t room);

/*
 * Writes the COMMAND of a SYNCHRONIZE CACHE(10), of UFS_HEADER_BYTES bytes. It is answered once all
 * that was accepted before is durable, or with `immediate` at once.
 */
uint32_t ufs_flush(uint8_t lun, uint8_t tag, bool immediate, uint8_t *into, size_t room);

/*
 * Writes the COMMAND of an UNMAP whose list has one descriptor (UFS_HEADER_BYTES bytes), and the
 * DATA OUT of that list (UFS_HEADER_BYTES and 24 more): `blocks` blocks from `address` on become
 * zeros.
 */
uint32_t ufs_unmap(uint8_t lun, uint8_t tag, uint8_t *into, size_t room);
uint32_t ufs_unmap_list(uint8_t lun, uint8_t tag, uint64_t address, uint32_t blocks, uint8_t *into,
                        size_t room);

/* What `ufs_ask` and `ufs_ask_for` ask for: the operation codes of the commands. A device of
 * profile 0 has only the first five, and of INQUIRY no pages. */
enum ufs_operation {
    UFS_TEST_UNIT_READY = 0x00,
    UFS_REQUEST_SENSE = 0x03,
    UFS_INQUIRY = 0x12,
    UFS_READ_CAPACITY = 0x25, /* READ CAPACITY(10) */
    UFS_REPORT_LUNS = 0xA0,   /* of the units of the configuration and the well-known ones */
    UFS_MODE_SENSE_6 = 0x1A,
    UFS_SEND_DIAGNOSTIC = 0x1D,
    UFS_MODE_SENSE_10 = 0x5A,
    UFS_READ_CAPACITY_16 = 0x9E,
    UFS_REPORT_OPERATIONS = 0xA3 /* REPORT SUPPORTED OPERATION CODES */
};

/*
 * Writes the COMMAND with this operation code, of UFS_HEADER_BYTES bytes; `allocation` says for how
 * many bytes the host has room. INQUIRY asks for standard data.
 *
 * UFS_BAD_NUMBER where `operation` is not UFS_READ_CAPACITY_16 and none of the first five, or
 * `allocation` is above FFh for UFS_REQUEST_SENSE or above FFFFh for UFS_INQUIRY. `into` stays as
 * it is then.
 */
uint32_t ufs_ask(uint8_t operation, uint8_t lun, uint8_t tag, uint32_t allocation, uint8_t *into,
                 size_t room);

/*
 * Writes the COMMAND with this operation code that asks for what is selected, of UFS_HEADER_BYTES
 * bytes; `allocation` says for how many bytes the host has room. `selection` (SPC-4, the clauses of
 * these commands) is
 *
 * - of UFS_INQUIRY the page of vital product data, 0 to FFh;
 * - of UFS_MODE_SENSE_6 and UFS_MODE_SENSE_10 bytes 2 and 3 of the CDB: the mode page, 0100h, 0800h,
 *   0A00h, 3F00h for all of them, or 3FFFh for all with their subpages; and 4000h more for its
 *   changeable values, 8000h for the default and C000h for the saved ones, else for the current;
 * - of UFS_REPORT_LUNS 0 for the units that are not well known, 1 for those that are, 2 for all;
 * - of UFS_REPORT_OPERATIONS bytes 2 to 5 of the CDB, in which 78000000h has no bit: 0 for all
 *   commands, 01000000h + 10000h * code for the one with this operation code, and 02000000h +
 *   10000h * code + action for the one with this service action too; 80000000h more for timeouts;
 * - of UFS_SEND_DIAGNOSTIC 1 with a self-test and 0 without. It has no data: `allocation` is 0.
 *
 * UFS_BAD_NUMBER where `operation` or `selection` is none of these, or `allocation` is above FFh for
 * UFS_MODE_SENSE_6 or above FFFFh for UFS_MODE_SENSE_10 or UFS_INQUIRY. `into` stays as it is then.
 */
uint32_t ufs_ask_for(uint8_t operation, uint32_t selection, uint8_t lun, uint8_t tag,
                     uint32_t allocation, uint8_t *into, size_t room);

/* What `ufs_blocks_16` writes: operation codes of commands that a device of profile 1 has. */
enum ufs_long_operation {
    UFS_READ_16 = 0x88,
    UFS_WRITE_16 = 0x8A,
    UFS_PRE_FETCH_16 = 0x90,
    UFS_SYNCHRONIZE_CACHE_16 = 0x91
};

/*
 * Writes the COMMAND with this operation code, of UFS_HEADER_BYTES bytes, on `blocks` blocks of 4096
 * bytes from `address` on (SBC-3). `option` is FUA of READ(16) and WRITE(16), and IMMED of the
 * others. 0 blocks of PRE-FETCH(16) are all up to the end of the unit.
 *
 * UFS_BAD_NUMBER where `operation` is none of these, or a READ(16) or a WRITE(16) has 100000h blocks
 * or more: a COMMAND cannot count their bytes. `into` stays as it is then.
 */
uint32_t ufs_blocks_16(uint8_t operation, uint8_t lun, uint8_t tag, uint64_t address,
                       uint32_t blocks, bool option, uint8_t *into, size_t room);

/*
 * Writes a QUERY REQUEST (JESD220, 10.7.8) without data, of UFS_HEADER_BYTES bytes. Its function is
 * that of the opcode: 81h for 02h, 04h, 06h, 07h and 08h, and else 01h.
 */
uint32_t ufs_query(uint8_t tag, uint8_t opcode, uint8_t idn, uint8_t index, uint8_t selector,
                   uint16_t length, uint32_t value, uint8_t *into, size_t room);

/*
 * Writes a TASK MANAGEMENT REQUEST (JESD220, 10.7.6), of UFS_HEADER_BYTES bytes: `meant` is the tag
 * of the task that is meant.
 */
uint32_t ufs_task_management(uint8_t lun, uint8_t tag, uint8_t function, uint8_t meant,
                             uint8_t *into, size_t room);

/* Writes a NOP OUT (JESD220, 10.7.11), of UFS_HEADER_BYTES bytes. */
uint32_t ufs_nop(uint8_t tag, uint8_t *into, size_t room);

/*
 * Writes a LINK EVENT, of UFS_HEADER_BYTES bytes. With it whatever stands between a host and a device
 * of profile 1 tells the device of a reset: `kind` is 1 for a hardware reset, 2 for a reset of the
 * link or of the host's controller. It has no task tag and no reply: all tasks and exchanges end, and
 * each LUN has an attention. A device of profile 0 takes none.
 *
 * UFS_BAD_NUMBER where there is no such kind. `into` stays as it is then.
 */
uint32_t ufs_link_event(uint8_t kind, uint8_t *into, size_t room);

/* A RESPONSE (JESD220, 10.7.2). Without sense data the sense key, the additional sense code and its
 * qualifier are 0. */
typedef struct ufs_answer {
    uint8_t tag;
    uint8_t response;
    uint8_t status; /* 0 is GOOD */
    uint8_t sense_key;
    uint8_t sense_code;
    uint8_t sense_qualifier;
    uint32_t residual;
} ufs_answer;

/*
 * Reads a reply that is a RESPONSE.
 *
 * UFS_BAD_NUMBER if it is none. `*answer` stays as it is then.
 */
uint32_t ufs_response(const uint8_t *reply, size_t length, ufs_answer *answer);

/*
 * Writes the MAC of frames of the replay protected memory block (JESD220, 12.4) into the first 32
 * bytes of `into`. The key has 32 bytes, and each frame 512, of which the MAC covers bytes 228 to
 * 511.
 *
 * UFS_BAD_NUMBER where the key has another length, or the frames are none or not whole; else
 * UFS_NO_ROOM. `into` stays as it is then.
 */
uint32_t ufs_rpmb_mac(const uint8_t *key, size_t key_length, const uint8_t *frames,
                      size_t frames_length, uint8_t *into, size_t room);

/* A frame of the replay protected memory block, but for its stuff bytes. docs/FORMATS.md says which
 * fields a request has; the others are 0. */
typedef struct ufs_frame {
    uint8_t key_or_mac[32];
    uint8_t data[256];
    uint8_t nonce[16];
    uint32_t write_counter;
    uint16_t address;
    uint16_t block_count;
    uint16_t result;
    uint16_t message_type;
} ufs_frame;

/*
 * Writes the UFS_FRAME_BYTES bytes of a frame. Where a request has a MAC, its last frame is written
 * once more, with what `ufs_rpmb_mac` made of all of them in `key_or_mac`.
 */
uint32_t ufs_rpmb_frame(const ufs_frame *frame, uint8_t *into, size_t room);

/*
 * Reads a frame.
 *
 * UFS_BAD_NUMBER where it has not UFS_FRAME_BYTES bytes: `*frame` stays as it is then.
 */
uint32_t ufs_rpmb_fields(const uint8_t *bytes, size_t length, ufs_frame *frame);

/*
 * Writes the COMMAND of a SECURITY PROTOCOL OUT, which brings `frames` frames for the region, or
 * else of a SECURITY PROTOCOL IN, which asks for them: UFS_HEADER_BYTES bytes.
 *
 * UFS_BAD_NUMBER where the region is above 3, or the frames are none or more than 8. `into` stays
 * as it is then.
 */
uint32_t ufs_rpmb_command(bool is_out, uint8_t tag, uint8_t region, uint8_t frames, uint8_t *into,
                          size_t room);

/*
 * Writes what a fault says, in English, and a zero byte behind it. The text is cut off where `room`
 * ends. The answer counts the bytes before the zero byte.
 */
size_t ufs_fault_text(uint32_t fault, char *into, size_t room);

#ifdef __cplusplus
}
#endif

#endif
