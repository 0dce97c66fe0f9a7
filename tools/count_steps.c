/*
 * Makes each of the five calls on a small device and on a large one, in the same states, so that
 * callgrind can count their instructions. tools/count_steps.py runs it, and has the table. The states
 * are those that the word `sizes` of crates/bench times.
 *
 * Of each size there are two devices, to which the same happens. The first shows what a call does:
 * a function named after that then makes the call on the second one, and callgrind counts it.
 *
 * usage: count_steps alone | beside | waiting | behind
 */
#include <stdio.h>
#include <stdlib.h>
#include <string.h>
#include <ufs.h>
#include <valgrind/callgrind.h>

enum { BLOCK = 4096, SPARE_BYTES = 96, PAGES = 16, UNITS = 1, SPARE = 4, CHUNK = 32, DEAD = 12 };
/* How often the cycles are made, and how many at a time. */
enum { TURNS = 10, CYCLES = 16 };
/* After so many rounds a device counts as one that never rests. */
enum { ROUNDS = 32768 };
/* READ(10), WRITE(10) and UNMAP (SBC-3); the transaction code of a DATA IN (JESD220, 10.5). */
enum { READ_10 = 0x28, WRITE_10 = 0x2A, UNMAP = 0x42, DATA_IN = 0x22 };

/* A call, and what it does. */
enum label {
    HOST_READ, REPLY_BLOCK, REPLY_NOTHING, TAKE_READ, TAKE_PROGRAM, TAKE_OPENING, TAKE_NOTHING,
    DONE_PROGRAM, DONE_READ, DONE_ERASE, TURN_NO, TURN_BEGINS, LABELS
};

enum scene { ALONE, BESIDE, WAITING, BEHIND, SCENES };
static const char *const scene_names[SCENES] = {"alone", "beside", "waiting", "behind"};

/* What a page of a die holds. A body that is all zeros is not kept. */
enum held { BLANK, ZEROS, BODY };
struct page {
    enum held held;
    uint8_t *body;
    uint8_t spare[SPARE_BYTES];
};

struct shape {
    uint8_t dies;
    uint16_t blocks, slots;
    uint32_t chunks; /* of 32 blocks, which the unit has, each on the die of its number */
};
static const struct shape small = {4, 64, 64, 104}, large = {8, 1024, 1024, 3944};

/* A device over dies of this program's own. */
struct side {
    ufs_device device;
    struct page *pages;
};

/* Two devices of one size, and what happened to both. */
struct pair {
    const struct shape *shape;
    struct side lead, counted;
    bool is_large, notes;
    uint16_t wanted, waiting;
    uint32_t overwritten, begun;
    ufs_job held;
    bool is_held;
};

/* A call of the library, and its answer. */
struct call {
    ufs_device *device;
    enum { HOST, REPLY, TAKE, DONE, TURN } what;
    const uint8_t *message;
    size_t length;
    uint8_t die, how;
    uint32_t answer;
};

static uint8_t reply[UFS_REPLY_BYTES];
static ufs_job job;

static void check(bool is_right, const char *what)
{
    if (is_right)
        return;
    fprintf(stderr, "count_steps: %s\n", what);
    exit(1);
}

static uint32_t make(struct call *call)
{
    switch (call->what) {
    case HOST:
        return ufs_host(call->device, call->message, call->length);
    case REPLY:
        return ufs_reply(call->device, reply, sizeof reply, &call->length);
    case TAKE:
        return ufs_take(call->device, call->die, &job);
    case DONE:
        return ufs_done(call->device, call->die, call->how, call->message, call->length);
    default:
        return ufs_turn(call->device);
    }
}

/* The functions that callgrind counts: one for each size and each thing that a call does. */
#define COUNTED(size, label) \
    __attribute__((noinline)) static void size##_##label(struct call *call) { call->answer = make(call); }
#define COUNTED_OF(size)                                                                                          \
    COUNTED(size, HOST_READ) COUNTED(size, REPLY_BLOCK) COUNTED(size, REPLY_NOTHING) COUNTED(size, TAKE_READ)      \
    COUNTED(size, TAKE_PROGRAM) COUNTED(size, TAKE_OPENING) COUNTED(size, TAKE_NOTHING) COUNTED(size, DONE_PROGRAM) \
    COUNTED(size, DONE_READ) COUNTED(size, DONE_ERASE) COUNTED(size, TURN_NO) COUNTED(size, TURN_BEGINS)
#define NAMES_OF(size)                                                                                    \
    {size##_HOST_READ,    size##_REPLY_BLOCK, size##_REPLY_NOTHING, size##_TAKE_READ,  size##_TAKE_PROGRAM, \
     size##_TAKE_OPENING, size##_TAKE_NOTHING, size##_DONE_PROGRAM, size##_DONE_READ, size##_DONE_ERASE,    \
     size##_TURN_NO,      size##_TURN_BEGINS}
COUNTED_OF(small)
COUNTED_OF(large)
static void (*const counted[2][LABELS])(struct call *) = {NAMES_OF(small), NAMES_OF(large)};

/* What a call did that was answered so. */
static enum label label_of(const struct call *call)
{
    switch (call->what) {
    case HOST:
        return HOST_READ;
    case REPLY:
        return call->answer == UFS_OK ? REPLY_BLOCK : REPLY_NOTHING;
    case TAKE:
        if (call->answer != UFS_OK)
            return TAKE_NOTHING;
        return job.kind == UFS_READ ? TAKE_READ : job.kind == UFS_PROGRAM && job.page > 0 ? TAKE_PROGRAM : TAKE_OPENING;
    case DONE:
        return call->how == UFS_READ_DONE ? DONE_READ : job.kind == UFS_PROGRAM ? DONE_PROGRAM : DONE_ERASE;
    default:
        return call->answer == UFS_OK ? TURN_BEGINS : TURN_NO;
    }
}

/* The call on both devices: the second is counted where `notes` says so. The answer. */
static uint32_t both(struct pair *pair, struct call call)
{
    struct call second = call;
    call.device = &pair->lead.device;
    second.device = &pair->counted.device;
    call.answer = make(&call);
    if (pair->notes)
        counted[pair->is_large][label_of(&call)](&second);
    else
        second.answer = make(&second);
    check(call.answer == second.answer, "two devices of one size differ");
    return call.answer;
}

/* The same without counting it. */
static uint32_t uncounted(struct pair *pair, struct call call)
{
    bool notes = pair->notes;
    pair->notes = false;
    uint32_t answer = both(pair, call);
    pair->notes = notes;
    return answer;
}

static bool hear(struct pair *pair)
{
    return uncounted(pair, (struct call){.what = REPLY}) == UFS_OK;
}

static bool send(struct pair *pair, const uint8_t *message, size_t length)
{
    return uncounted(pair, (struct call){.what = HOST, .message = message, .length = length}) == UFS_OK;
}

/* Dies */

static struct page *page_of(const struct pair *pair, struct side *side, const ufs_job *what)
{
    return &side->pages[((size_t)what->die * pair->shape->blocks + what->block) * PAGES + what->page];
}

static void program(struct page *page, const ufs_job *what)
{
    static const uint8_t zeros[BLOCK];
    page->held = memcmp(what->body, zeros, BLOCK) == 0 ? ZEROS : BODY;
    memcpy(page->spare, what->spare, SPARE_BYTES);
    if (page->held == ZEROS)
        return;
    page->body = page->body ? page->body : malloc(BLOCK);
    check(page->body != NULL, "no memory");
    memcpy(page->body, what->body, BLOCK);
}

/* The bytes of a page. */
static void read_page(const struct page *page, uint8_t bytes[UFS_PAGE_BYTES])
{
    memset(bytes, page->held == BLANK ? 0xFF : 0, UFS_PAGE_BYTES);
    if (page->held == BODY)
        memcpy(bytes, page->body, BLOCK);
    if (page->held != BLANK)
        memcpy(bytes + BLOCK, page->spare, SPARE_BYTES);
}

/* Does the job on the dies of a side. */
static void work(struct pair *pair, struct side *side, const ufs_job *what)
{
    struct page *page = page_of(pair, side, what);
    if (what->kind == UFS_PROGRAM)
        program(page, what);
    for (size_t at = 0; what->kind == UFS_ERASE && at < PAGES; at++)
        page[at].held = BLANK;
}

/* Ends the job on both sides. */
static void end(struct pair *pair, const ufs_job *what)
{
    static uint8_t bytes[UFS_PAGE_BYTES];
    bool is_read = what->kind == UFS_READ;
    work(pair, &pair->lead, what);
    work(pair, &pair->counted, what);
    if (is_read)
        read_page(page_of(pair, &pair->lead, what), bytes);
    job = *what;
    uint32_t how = is_read ? UFS_READ_DONE : UFS_DONE;
    uint32_t answer = both(pair, (struct call){.what = DONE, .die = what->die, .how = how, .message = bytes,
                                               .length = is_read ? sizeof bytes : 0});
    check(answer == UFS_OK, "a job was not in flight");
}

/* The next job of a die, if it is owed one. */
static bool take(struct pair *pair, uint8_t die)
{
    return both(pair, (struct call){.what = TAKE, .die = die}) == UFS_OK;
}

static bool work_of(struct pair *pair, uint8_t die)
{
    if (!take(pair, die))
        return false;
    ufs_job taken = job;
    end(pair, &taken);
    return true;
}

/* Turns, and jobs of the first `dies` dies, until there is nothing to do. */
static void rest(struct pair *pair, uint8_t dies)
{
    bool notes = pair->notes, is_busy = true;
    pair->notes = false;
    for (int round = 0; is_busy; round++) {
        check(round < ROUNDS, "a device does not come to rest");
        is_busy = both(pair, (struct call){.what = TURN}) == UFS_OK;
        for (uint8_t die = 0; die < dies; die++)
            is_busy |= work_of(pair, die);
    }
    pair->notes = notes;
    pair->waiting = 0;
}

/* Commands */

static uint8_t *command(uint8_t tag, uint8_t code, uint32_t address, uint16_t blocks)
{
    static uint8_t bytes[UFS_HEADER_BYTES];
    const uint8_t cdb[] = {code, 0, (uint8_t)(address >> 24), (uint8_t)(address >> 16), (uint8_t)(address >> 8),
                           (uint8_t)address, 0, (uint8_t)(blocks >> 8), (uint8_t)blocks};
    uint8_t way = code == READ_10 ? UFS_FROM_DEVICE : UFS_TO_DEVICE;
    uint32_t count = code == UNMAP ? blocks : blocks * (uint32_t)BLOCK;
    check(ufs_command(way, 0, tag, count, cdb, sizeof cdb, bytes, sizeof bytes) == UFS_OK, "no COMMAND");
    return bytes;
}

/* UNMAP of so many blocks, whose pages this die programs: the list is SBC-3's, of one descriptor. */
static void unmap(struct pair *pair, uint8_t die, uint32_t address, uint16_t blocks)
{
    uint8_t list[24] = {0, 22, 0, 16}, message[UFS_MESSAGE_BYTES];
    for (int at = 0; at < 4; at++)
        list[12 + at] = (uint8_t)(address >> (24 - 8 * at));
    list[18] = (uint8_t)(blocks >> 8);
    list[19] = (uint8_t)blocks;
    check(ufs_data_out(0, 0, 0, list, sizeof list, message, sizeof message) == UFS_OK, "no list");
    check(send(pair, command(0, UNMAP, 0, sizeof list), UFS_HEADER_BYTES) && hear(pair)
              && send(pair, message, UFS_HEADER_BYTES + sizeof list) && hear(pair), "an UNMAP was not heard");
    while (work_of(pair, die))
        continue;
}

/* The next address to overwrite: one block of a die after another loses its first pages. */
static uint32_t next_address(struct pair *pair)
{
    uint32_t block = pair->overwritten / DEAD, page = pair->overwritten % DEAD, workers = pair->shape->dies - 1u;
    uint32_t chunk = block / 2 / workers * pair->shape->dies + block / 2 % workers;
    pair->overwritten++;
    return chunk * CHUNK + block % 2 * PAGES + page;
}

/* WRITE of the next block, without FUA. */
static void write_next(struct pair *pair)
{
    static uint8_t block[BLOCK], message[UFS_MESSAGE_BYTES];
    memset(block, 0x5A, sizeof block);
    check(ufs_data_out(0, 0, 0, block, sizeof block, message, sizeof message) == UFS_OK, "no DATA OUT");
    check(send(pair, command(0, WRITE_10, next_address(pair), 1), UFS_HEADER_BYTES) && hear(pair)
              && send(pair, message, sizeof message) && hear(pair) && reply[7] == 0, "a WRITE was not GOOD");
    pair->waiting++;
}

static void fill_slots(struct pair *pair)
{
    while (pair->waiting < pair->wanted)
        write_next(pair);
}

/* The states */

/* The unit is written, each chunk of 32 blocks on its die. The first mark and 15 pages fill a block
 * before. */
static void fill(struct pair *pair)
{
    rest(pair, pair->shape->dies);
    unmap(pair, 0, pair->shape->chunks * CHUNK, PAGES - 1);
    for (uint32_t chunk = 0; chunk < pair->shape->chunks; chunk++)
        unmap(pair, (uint8_t)(chunk % pair->shape->dies), chunk * CHUNK, CHUNK);
}

/* 31 READs of 32 blocks are open, and wait for the last die, which does no job. */
static void open_others(struct pair *pair)
{
    for (uint8_t tag = 1; tag < 32; tag++)
        check(send(pair, command(tag, READ_10, (tag % 8u * pair->shape->dies + pair->shape->dies - 1u) * CHUNK, CHUNK),
                   UFS_HEADER_BYTES), "a READ was refused");
}

/* A page is in flight on the last die, and pages behind it are programmed. */
static void hold_page(struct pair *pair)
{
    uint8_t last = (uint8_t)(pair->shape->dies - 1);
    write_next(pair);
    pair->is_held = take(pair, last);
    while (pair->is_held && job.kind == UFS_ERASE) {
        ufs_job erase = job;
        end(pair, &erase);
        pair->is_held = take(pair, last);
    }
    pair->held = job;
    for (uint16_t count = 33; count < pair->shape->slots; count++)
        write_next(pair);
    rest(pair, last);
}

static void release_page(struct pair *pair)
{
    if (pair->is_held)
        end(pair, &pair->held);
    pair->is_held = false;
}

/* Cycles */

/* The page that waits first is programmed, after erases that it needs, by the first die with room. */
static uint8_t program_next(struct pair *pair, uint8_t first)
{
    for (uint8_t step = 0; step < 32; step++) {
        uint8_t die = (uint8_t)((first + step) % (pair->shape->dies - 1));
        if (!take(pair, die))
            continue;
        ufs_job taken = job;
        end(pair, &taken);
        if (taken.kind == UFS_PROGRAM)
            return die;
    }
    check(false, "no program waits");
    return 0;
}

/* READ of a block that die 0 has. */
static void read_block(struct pair *pair, uint32_t address)
{
    struct call read = {.what = HOST, .message = command(0, READ_10, address, 1), .length = UFS_HEADER_BYTES};
    check(both(pair, read) == UFS_OK, "a READ was refused");
    check(both(pair, (struct call){.what = REPLY}) == UFS_NOTHING, "a READ was answered at once");
    check(work_of(pair, 0), "no read waits");
    check(both(pair, (struct call){.what = REPLY}) == UFS_OK && reply[0] == DATA_IN, "a READ was not answered");
    check(hear(pair), "a READ was not ended");
}

/* A turn, a WRITE and its program, and a READ from die 0. */
static void cycle(struct pair *pair, uint8_t number)
{
    if (both(pair, (struct call){.what = TURN}) == UFS_OK) {
        pair->begun++;
        rest(pair, (uint8_t)(pair->shape->dies - 1));
        bool notes = pair->notes;
        pair->notes = false;
        fill_slots(pair);
        pair->notes = notes;
    }
    write_next(pair);
    uint8_t die = program_next(pair, number);
    if (pair->wanted == 0)
        check(!take(pair, die), "a die is owed a job");
    pair->waiting--;
    read_block(pair, number);
}

static void cycles(struct pair *pair)
{
    for (uint8_t number = 0; number < CYCLES; number++)
        cycle(pair, number);
}

static void open_side(struct side *side, const struct shape *shape)
{
    const ufs_config config = {shape->dies, shape->blocks, PAGES, {1, 0, 0, 0}, shape->slots, SPARE, 0, 1};
    const ufs_unit unit[UNITS] = {{shape->chunks * CHUNK + PAGES - 1, 0, 0}};
    side->pages = calloc((size_t)shape->dies * shape->blocks * PAGES, sizeof *side->pages);
    check(side->pages != NULL, "no memory");
    check(ufs_open(&side->device, &config, unit, UNITS) == UFS_OK, "a device did not open");
    check(ufs_own_dies(&side->device) == UFS_OK, "dies were not given up");
}

/* A size in a scene, from its opening on. */
static void play(const struct shape *shape, bool is_large, enum scene scene)
{
    static struct pair pair;
    pair = (struct pair){.shape = shape, .is_large = is_large, .overwritten = 2 * DEAD,
                         .lead = {.device = UFS_CLOSED}, .counted = {.device = UFS_CLOSED}};
    open_side(&pair.lead, shape);
    open_side(&pair.counted, shape);
    fill(&pair);
    while (pair.begun == 0)
        cycles(&pair);
    if (scene == BESIDE)
        open_others(&pair);
    if (scene == WAITING)
        pair.wanted = (uint16_t)(shape->slots - 32);
    fill_slots(&pair);
    for (int turn = 0; turn < TURNS; turn++) {
        if (scene == BEHIND)
            hold_page(&pair);
        pair.notes = true;
        CALLGRIND_START_INSTRUMENTATION;
        cycles(&pair);
        CALLGRIND_STOP_INSTRUMENTATION;
        pair.notes = false;
        release_page(&pair);
    }
    ufs_close(&pair.lead.device);
    ufs_close(&pair.counted.device);
}

int main(int count, char **words)
{
    enum scene scene = ALONE;
    while (count == 2 && scene < SCENES && strcmp(words[1], scene_names[scene]) != 0)
        scene++;
    check(count == 2 && scene < SCENES, "usage: count_steps alone | beside | waiting | behind");
    play(&small, false, scene);
    play(&large, true, scene);
    return 0;
}
