/*
 * ufs_dies.h: dies that the caller brings, as a table of functions, over ufs.h.
 *
 * `ufs_open_dies` reads what the dies hold, and opens a device over it; `ufs_work_die` lets a die
 * do the next job that the device has for it. After a power failure close the device, and open it
 * anew over the dies. What this header does is not proved: it is C over calls that are.
 *
 * The promise of ufs.h holds over such dies too. For it the caller owes this: a die that answers that
 * it did a job did just this job, and a read gave what is there; a program or an erase that failed, or
 * that a power failure interrupted, leaves each page that it touches as it was, as intended, or with a
 * check that does not match; and nothing else changes a page. Before the first opening the dies are
 * new, or hold what such a device left.
 */
#ifndef UFS_DIES_H
#define UFS_DIES_H

#include <stdlib.h>
#include <string.h>
#include <ufs.h>

#ifdef __cplusplus
extern "C" {
#endif

/* A page of a die. */
typedef struct ufs_place {
    uint8_t die;
    uint16_t block;
    uint16_t page;
} ufs_place;

/*
 * The dies. Each function gets `context`, and answers whether it did what it was asked for. A
 * program or an erase that did not makes its block bad: the device asks it for nothing but reads
 * from then on.
 */
typedef struct ufs_dies {
    void *context;
    /* Reads the page into the UFS_PAGE_BYTES bytes of `bytes`. Each byte of a page that was erased
     * is FFh. */
    bool (*read)(void *context, ufs_place place, uint8_t *bytes);
    /* Programs the page with the UFS_PAGE_BYTES bytes of `bytes`. */
    bool (*program)(void *context, ufs_place place, const uint8_t *bytes);
    /* Erases the block of `place`, whose page is 0. */
    bool (*erase)(void *context, ufs_place place);
    /* Whether the block of `place`, whose page is 0, is bad. It is and stays so once a job on it
     * failed. */
    bool (*is_bad)(void *context, ufs_place place);
} ufs_dies;

/* What `ufs_open_dies` answers beside what ufs.h has: a page of a die could not be read. */
enum { UFS_PAGE_NOT_READ = 64 };

/* How many bytes an image of dies of these sizes has in front of its blocks (docs/FORMATS.md). */
enum { UFS_IMAGE_HEAD = 14 };

/* Reads a block into its place in an image: whether it is bad, and then its pages. */
static inline bool ufs_read_block(const ufs_config *config, const ufs_dies *dies, ufs_place place,
                                  uint8_t *into)
{
    bool is_read = true;
    *into++ = dies->is_bad(dies->context, place) ? 1 : 0;
    for (; is_read && place.page < config->pages; place.page++) {
        is_read = dies->read(dies->context, place, into);
        into += UFS_PAGE_BYTES;
    }
    return is_read;
}

/* Reads the dies into an image of them, which has room for all. */
static inline bool ufs_read_dies(const ufs_config *config, const ufs_dies *dies, uint8_t *image)
{
    const uint8_t head[UFS_IMAGE_HEAD] = {'U', 'F', 'S', 'I', 'M', 'A', 'G', 'E', config->dies, 0,
                                          (uint8_t)(config->blocks >> 8), (uint8_t)config->blocks,
                                          (uint8_t)(config->pages >> 8), (uint8_t)config->pages};
    size_t step = 1 + (size_t)config->pages * UFS_PAGE_BYTES;
    size_t count = (size_t)config->dies * config->blocks;
    bool is_read = true;
    memcpy(image, head, sizeof head);
    for (size_t at = 0; is_read && at < count; at++) {
        ufs_place place = {(uint8_t)(at / config->blocks), (uint16_t)(at % config->blocks), 0};
        is_read = ufs_read_block(config, dies, place, image + UFS_IMAGE_HEAD + at * step);
    }
    return is_read;
}

/* Why no device is opened with these numbers, or UFS_OK: one is opened over new dies and closed. */
static inline uint32_t ufs_try_numbers(const ufs_config *config, const ufs_unit *units,
                                       size_t unit_count)
{
    ufs_device tried = UFS_CLOSED;
    uint32_t fault = ufs_open(&tried, config, units, unit_count);
    return fault == UFS_OK ? ufs_close(&tried) : fault;
}

/*
 * Opens a device over what the dies hold, each page of which is read once. It takes memory for all
 * of it meanwhile. From then on the dies are the caller's own.
 *
 * As ufs_open_image, and UFS_PAGE_NOT_READ: the handle holds then what it held. The dies are read
 * only where a device can be opened with these numbers.
 */
static inline uint32_t ufs_open_dies(ufs_device *device, const ufs_config *config,
                                     const ufs_unit *units, size_t unit_count, const ufs_dies *dies)
{
    size_t length = UFS_IMAGE_HEAD
        + (size_t)config->dies * config->blocks * (1 + (size_t)config->pages * UFS_PAGE_BYTES);
    uint32_t fault = ufs_try_numbers(config, units, unit_count);
    uint8_t *image;
    if (fault != UFS_OK)
        return fault;
    image = (uint8_t *)malloc(length);
    if (image == NULL)
        return UFS_NO_MEMORY;
    fault = UFS_PAGE_NOT_READ;
    if (ufs_read_dies(config, dies, image))
        fault = ufs_open_image(device, config, units, unit_count, image, length);
    free(image);
    return fault == UFS_OK ? ufs_own_dies(device) : fault;
}

/* Does the job, and tells the device how it ended. */
static inline uint32_t ufs_do_job(ufs_device *device, const ufs_dies *dies, const ufs_job *job)
{
    uint8_t bytes[UFS_PAGE_BYTES];
    ufs_place place = {job->die, job->block, job->page};
    bool is_done;
    if (job->kind == UFS_READ) {
        is_done = dies->read(dies->context, place, bytes);
        return ufs_done(device, job->die, is_done ? UFS_READ_DONE : UFS_READ_FAILED, bytes,
                        is_done ? sizeof bytes : 0);
    }
    memcpy(bytes, job->body, sizeof job->body);
    memcpy(bytes + sizeof job->body, job->spare, sizeof job->spare);
    is_done = job->kind == UFS_PROGRAM ? dies->program(dies->context, place, bytes)
                                       : dies->erase(dies->context, place);
    return ufs_done(device, job->die, is_done ? UFS_DONE : UFS_FAILED, bytes, 0);
}

/*
 * Lets the die do its next job.
 *
 * As ufs_take: UFS_NOTHING where the die is owed none.
 */
static inline uint32_t ufs_work_die(ufs_device *device, const ufs_dies *dies, uint8_t die)
{
    ufs_job job;
    uint32_t fault = ufs_take(device, die, &job);
    return fault == UFS_OK ? ufs_do_job(device, dies, &job) : fault;
}

#ifdef __cplusplus
}
#endif

#endif
