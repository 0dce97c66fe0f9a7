/*
 * The dies of this program are a table of functions over arrays. A block is written with FUA, the
 * power goes while the next write is under way, and a device that is opened anew over the dies has
 * the first block. Then a block of a die goes bad, and the write that met it is kept all the same.
 * The status is 0 only if all is right.
 *
 * `make c-example` builds and runs it.
 */
#include <stdio.h>
#include <ufs_dies.h>

enum { BLOCK = 4096, DIES = 2, BLOCKS = 20, PAGES = 16, ROUNDS = 256 };
/* READ(10), WRITE(10) and its bit FUA (SBC-3); transaction codes (JESD220, 10.5). */
enum { READ_10 = 0x28, WRITE_10 = 0x2A, FUA = 0x08, RESPONSE = 0x21, DATA_IN = 0x22, READY = 0x31 };

static const ufs_config config = {DIES, BLOCKS, PAGES, {1, 0, 0, 0}, 64, 0, 0, 1};
static const ufs_config config_with_spare = {DIES, BLOCKS, PAGES, {1, 0, 0, 0}, 64, 1, 0, 1};
static const ufs_config config_of_nine_dies = {9, BLOCKS, PAGES, {1, 0, 0, 0}, 64, 0, 0, 1};
static const ufs_unit units[] = {{16, 0, 0}};

/* What the dies hold, which blocks are bad, and whether the next program fails. */
struct arrays {
    uint8_t pages[DIES][BLOCKS][PAGES][UFS_PAGE_BYTES];
    bool is_bad[DIES][BLOCKS];
    bool fails;
};

static struct arrays arrays;
static uint8_t reply[UFS_REPLY_BYTES];
static size_t reply_length;

static void check(bool is_right, const char *what)
{
    if (is_right)
        return;
    fprintf(stderr, "die_table: %s\n", what);
    exit(1);
}

static uint8_t *page_at(struct arrays *held, ufs_place place)
{
    return held->pages[place.die][place.block][place.page];
}

static bool read_page(void *context, ufs_place place, uint8_t *bytes)
{
    memcpy(bytes, page_at((struct arrays *)context, place), UFS_PAGE_BYTES);
    return true;
}

static bool program_page(void *context, ufs_place place, const uint8_t *bytes)
{
    struct arrays *held = (struct arrays *)context;
    if (held->fails) {
        held->fails = false;
        held->is_bad[place.die][place.block] = true;
        return false;
    }
    memcpy(page_at(held, place), bytes, UFS_PAGE_BYTES);
    return true;
}

static bool erase_block(void *context, ufs_place place)
{
    memset(page_at((struct arrays *)context, place), 0xFF, PAGES * UFS_PAGE_BYTES);
    return true;
}

static bool is_bad(void *context, ufs_place place)
{
    return ((struct arrays *)context)->is_bad[place.die][place.block];
}

static const ufs_dies dies = {&arrays, read_page, program_page, erase_block, is_bad};

/* A page that no die can read. */
static bool read_nothing(void *context, ufs_place place, uint8_t *bytes)
{
    (void)context, (void)place, (void)bytes;
    return false;
}

/* The next reply, after as many rounds of turns and jobs as it needs, has this transaction code. */
static void hear(ufs_device *device, uint8_t code)
{
    for (int round = 0; ufs_reply(device, reply, sizeof reply, &reply_length) != UFS_OK; round++) {
        check(round < ROUNDS, "no reply came");
        ufs_turn(device);
        for (uint8_t die = 0; die < DIES; die++)
            ufs_work_die(device, &dies, die);
    }
    check(reply[0] == code, "another reply came");
}

static void command(ufs_device *device, uint8_t flags, uint8_t operation, uint8_t second,
                    uint8_t address)
{
    const uint8_t cdb[] = {operation, second, 0, 0, 0, address, 0, 0, 1};
    uint8_t message[UFS_HEADER_BYTES];
    check(ufs_command(flags, 0, 1, BLOCK, cdb, sizeof cdb, message, sizeof message) == UFS_OK,
          "no COMMAND");
    check(ufs_host(device, message, sizeof message) == UFS_OK, "a COMMAND was not taken");
}

/* A WRITE of one block of equal bytes, up to its data. */
static void begin_write(ufs_device *device, uint8_t address, uint8_t byte)
{
    static uint8_t block[BLOCK], message[UFS_MESSAGE_BYTES];
    memset(block, byte, sizeof block);
    command(device, UFS_TO_DEVICE, WRITE_10, FUA, address);
    hear(device, READY);
    check(ufs_data_out(0, 1, 0, block, sizeof block, message, sizeof message) == UFS_OK,
          "no DATA OUT");
    check(ufs_host(device, message, sizeof message) == UFS_OK, "the data were not taken");
}

static void write_block(ufs_device *device, uint8_t address, uint8_t byte)
{
    begin_write(device, address, byte);
    hear(device, RESPONSE);
    check(reply[7] == 0, "a write was not GOOD");
}

static void expect_block(ufs_device *device, uint8_t address, uint8_t byte)
{
    command(device, UFS_FROM_DEVICE, READ_10, 0, address);
    hear(device, DATA_IN);
    for (size_t at = UFS_HEADER_BYTES; at < reply_length; at++)
        check(reply[at] == byte, "a block was not read as it was written");
    hear(device, RESPONSE);
}

/* A device over what the dies hold, once it takes commands. */
static void open_device(ufs_device *device, const ufs_config *numbers)
{
    check(ufs_open_dies(device, numbers, units, 1, &dies) == UFS_OK, "the device did not open");
    for (int round = 0; round < ROUNDS; round++) {
        ufs_turn(device);
        for (uint8_t die = 0; die < DIES; die++)
            ufs_work_die(device, &dies, die);
    }
}

/* A stop while a write is under way. */
static void stop_in_a_write(void)
{
    ufs_device device = UFS_CLOSED;
    ufs_job job;
    open_device(&device, &config);
    write_block(&device, 3, 0x42);
    begin_write(&device, 4, 0x43);
    check(ufs_take(&device, 0, &job) == UFS_OK || ufs_take(&device, 1, &job) == UFS_OK,
          "no job is due");
    check(ufs_close(&device) == UFS_OK, "the device did not close");
    open_device(&device, &config);
    expect_block(&device, 3, 0x42);
    expect_block(&device, 4, 0);
    check(ufs_close(&device) == UFS_OK, "the device did not close");
}

/* A block that goes bad is one of the spare ones. */
static void fail_a_program(void)
{
    ufs_device device = UFS_CLOSED;
    memset(arrays.pages, 0xFF, sizeof arrays.pages);
    open_device(&device, &config_with_spare);
    arrays.fails = true;
    write_block(&device, 5, 0x44);
    check(!arrays.fails, "no program failed");
    check(ufs_close(&device) == UFS_OK, "the device did not close");
    open_device(&device, &config_with_spare);
    expect_block(&device, 5, 0x44);
    check(ufs_close(&device) == UFS_OK, "the device did not close");
}

int main(void)
{
    ufs_dies unread = dies;
    ufs_device device = UFS_CLOSED;
    unread.read = read_nothing;
    memset(arrays.pages, 0xFF, sizeof arrays.pages);
    check(ufs_open_dies(&device, &config, units, 1, &unread) == UFS_PAGE_NOT_READ,
          "a page was read");
    check(ufs_open_dies(&device, &config_of_nine_dies, units, 1, &unread) == UFS_RANGE,
          "nine dies were read");
    stop_in_a_write();
    fail_a_program();
    puts("the blocks are there, after a stop and beside a block that went bad");
    return 0;
}
