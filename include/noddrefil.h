/* noddrefil.h - a cache of bytes that threads share, called from C and C++.
 *
 * Link libmc_c.a and then liblibc_c.a, which pass requests for memory on to malloc and free:
 *
 *     cc -O2 -Iinclude first.c libmc_c.a liblibc_c.a -lpthread -o first
 *
 * `make install` installs both, this header, and what pkg-config prints: cc first.c $(pkg-config --cflags --libs noddrefil) -o first
 *
 * A cache has a fixed number of workers, and one tender. mc_open makes all of them. It fills the handle of the first worker and that of the
 * tender; mc_join fills the handles of the other workers. A thread that stores or reads has a worker of its own. One thread more has the tender,
 * and calls mc_tend about once a second. That call moves pages of memory to the sizes of items that are asked for. A program may leave the tender
 * alone: then a page stays with the size that took it first.
 *
 * A cache consists of shards, and each shard has pages of its own. A class is one size of chunks. Each page belongs to a class, which cuts it into
 * its chunks, or to the shard's pool. Class 1 has the smallest chunks.
 *
 * Who owns what. A handle is a struct of the caller's, and what it leads to is the library's. The caller closes each handle that was filled, in
 * any order and by any thread; the last one frees the cache. The library keeps no pointer to a key, to a value or to a buffer once a call has
 * returned.
 *
 * Threads. A handle is given to one call at a time. Another thread may have it later, if the program orders the two calls by a lock, by the start
 * or the end of a thread. Calls with different handles need no order.
 *
 * Versions. Each store has a number, the version of the value that it stored. No other store of the same key ever has that number.
 * mc_get_with_version writes the version, and mc_compare_and_set stores only where the key's value has it. A program that changes a value
 * makes these two calls, and makes both again at MC_EXISTS. So no change by another thread is lost.
 *
 * Waiting. No call waits or sleeps. A call tries for a lock n times, and spins between two tries; `tries` is that number. Where other threads
 * had the lock at each try, the call returns MC_HELD, and the caller tries again, best behind sched_yield(). The helpers at the end of this file
 * do so.
 *
 * Zeros. A handle that is all zeros is closed. Each call answers a closed handle, or one of the other kind, with MC_CLOSED. A handle that
 * this library did not fill must be zeros: nothing can test another one.
 */
#ifndef NODDREFIL_H
#define NODDREFIL_H

#include <stddef.h>
#include <stdint.h>

#ifdef __cplusplus
extern "C" {
#endif

/* What a call returns. */
enum mc_code {
    MC_OK = 0,
    MC_MISSING = 1,        /* the key has no value */
    MC_HELD = 2,           /* other threads had a lock at each try: yield, and call again */
    MC_TOO_LARGE = 3,      /* no chunk has room for the key and the value */
    MC_NO_ROOM = 4,        /* nothing could be evicted */
    MC_WORN_OUT = 5,       /* a counter is at its end, after 2^48 stores of one worker: join another worker */
    MC_NO_MEMORY = 6,      /* malloc returned none; the key has what it had */
    MC_TOO_SMALL = 7,      /* the buffer has too little room: *len is the value's length */
    MC_NO_WORKERS = 8,     /* all workers were given out */
    MC_CLOSED = 9,         /* the handle is closed, or of the other kind */
    MC_BAD_KEY = 10,       /* a key has from 1 to 250 bytes */
    MC_BUSY = 11,          /* a page of the shard moves already */
    MC_BAD_CLASS = 12,     /* there is no such class */
    MC_NO_SPARE = 13,      /* the source has fewer than two pages */
    MC_SAME_CLASS = 14,    /* source and destination are one class */
    MC_OUT_OF_RANGE = 15,  /* there is no such shard, stripe or mode */
    MC_EXISTS = 27,        /* the key has a value, or one of another version */

    /* why a configuration is refused: the first test that it fails */
    MC_BAD_SHARDS = 16,    /* from 1 to 4096 */
    MC_BAD_WORKERS = 17,   /* from 1 to 63 */
    MC_BAD_PAGE = 18,      /* a multiple of 8 from 64 to 16384 */
    MC_BAD_FIRST = 19,     /* from 24 to the page's size */
    MC_BAD_FACTOR = 20,    /* num / den is above 1, and num is at most 65535 */
    MC_BAD_MAX = 21,       /* a multiple of 8 from the first size to the page's */
    MC_BAD_LIMIT = 22,     /* 1 to 64 pages */
    MC_BAD_STRIPES = 23,   /* from 1 to 64 */
    MC_BAD_CHUNKS = 24,    /* a page of the first class has at most 256 chunks */
    MC_BAD_BULK = 25,      /* from 1 to 256 */
    MC_TOO_FEW_BYTES = 26  /* a shard with one page takes more */
};

/* A handle: of a worker, or of the tender. A program passes it on, and does not change it. */
typedef struct mc_handle {
    uint64_t state;
    void *at;
} mc_handle;
typedef mc_handle mc_worker;
typedef mc_handle mc_tender;

/* What a cache is made with. Sizes are in bytes. */
typedef struct mc_config {
    uint64_t page;         /* the size of a page */
    uint64_t limit;        /* the bytes of a shard's pages */
    uint64_t first;        /* the size of the first class's chunks */
    uint64_t num, den;     /* chunks grow by num / den from class to class */
    uint64_t max;          /* the size of the last class's chunks */
    uint64_t stripes;      /* the number of item locks of a shard */
    uint64_t bulk;         /* how many chunks a turn of the mover looks at */
    uint64_t shards;       /* the number of shards; a key's hash chooses its shard */
    uint64_t hash_first;   /* two numbers that keys are hashed with: random ones, */
    uint64_t hash_second;  /* where others choose the keys */
} mc_config;

/* What a window of all shards did. */
typedef struct mc_tended {
    uint64_t found;        /* the moves that were under way: a store of mode 2 asked for them, or the window before left them so */
    uint64_t began;        /* the moves of a page that began */
    uint64_t ended;        /* the moves of a page that ended */
    uint64_t rescued;      /* the items that a move took to another chunk of their class */
    uint64_t evicted;      /* the items that a move evicted, as their class had no other chunk */
    uint64_t held;         /* the shards whose window ended early, as other workers had a lock at each try */
} mc_tended;

/* What a class has on all shards together. */
typedef struct mc_class_stats {
    uint64_t size;         /* the bytes of a chunk */
    uint64_t per_page;     /* the chunks of a page */
    uint64_t pages;        /* the pages of the class, those that move counted in */
    uint64_t free_chunks;  /* the chunks of the free lists; a deleted item's is among them from the next window on */
    uint64_t evictions;    /* the items that were ever evicted to make room */
} mc_class_stats;

/* What all shards have together. */
typedef struct mc_totals {
    uint64_t granted;      /* the pages that were ever granted to a class */
    uint64_t pool;         /* the pages in the pools */
    uint64_t moving;       /* the shards of which a page moves */
    uint64_t ended;        /* the moves that ended */
    uint64_t rescued;      /* the items that moves took to another chunk of their class */
    uint64_t evicted;      /* the items that moves evicted */
    uint64_t busy;         /* how often a move met a chunk that somebody held */
} mc_totals;

/* Writes a configuration of a cache that takes at most this many bytes, all that grows with its items counted in, for items of which most have
 * `usual_item` bytes of key and value. It leaves the two numbers of the hash alone: set them. MC_BAD_WORKERS, MC_TOO_FEW_BYTES. */
uint32_t mc_config_for_bytes(mc_config *config, uint64_t bytes, uint64_t usual_item, uint64_t workers);

/* Writes how many bytes mc_open asks malloc for and keeps. The codes of a refused configuration. */
uint32_t mc_bytes(const mc_config *config, uint64_t workers, uint64_t *bytes);

/* Makes a cache for this many workers, and fills both handles. What they held is overwritten, so give closed ones. The codes of a refused
 * configuration, MC_NO_MEMORY: then nothing is left, and both handles are as before. */
uint32_t mc_open(const mc_config *config, uint64_t workers, mc_worker *first, mc_tender *tender);

/* Writes the most bytes that a value may have beside a key of `key_len` bytes. MC_TOO_LARGE, where no value fits beside such a key; MC_CLOSED. */
uint32_t mc_max_value(mc_worker *worker, uint64_t key_len, uint64_t *most);

/* Fills the handle of another worker. `first` is the one that mc_open filled. MC_NO_WORKERS, MC_NO_MEMORY, MC_CLOSED. */
uint32_t mc_join(mc_worker *first, mc_worker *out);

/* Copies the key's value to `out`, which has room for `room` bytes, and writes its length to *len. MC_MISSING; MC_TOO_SMALL, where the
 * length alone is written; MC_HELD, MC_NO_MEMORY, MC_BAD_KEY, MC_CLOSED. */
uint32_t mc_get(mc_worker *worker, const uint8_t *key, size_t key_len, uint64_t tries, uint8_t *out, size_t room, uint64_t *len);

/* Copies the key's value as mc_get does, and writes its version to *version, also at MC_TOO_SMALL. The codes of mc_get. */
uint32_t mc_get_with_version(mc_worker *worker, const uint8_t *key, size_t key_len, uint64_t tries, uint8_t *out, size_t room, uint64_t *len,
                             uint64_t *version);

/* Stores the value under the key, in place of what the key had. Items that nobody used lately go, where there is no room. At MC_TOO_LARGE,
 * MC_NO_ROOM, MC_WORN_OUT and MC_NO_MEMORY the key has no value any more: the old one is deleted. MC_HELD, MC_BAD_KEY, MC_CLOSED. */
uint32_t mc_set(mc_worker *worker, const uint8_t *key, size_t key_len, const uint8_t *value, size_t value_len, uint64_t tries);

/* The same as mc_set, but at each of these codes the key has what it had, unless its item was among those that were evicted. */
uint32_t mc_set_or_keep(mc_worker *worker, const uint8_t *key, size_t key_len, const uint8_t *value, size_t value_len, uint64_t tries);

/* The next three calls look at the key first, and then store only where it still has what they saw. A value that the look refuses takes no memory,
 * and nothing is evicted for it. A store makes room as mc_set does, but mc_replace and mc_compare_and_set don't evict the item that they are to
 * replace: without other room they return MC_NO_ROOM, and the value stays. Each call also returns the codes of mc_set. None of these deletes
 * the old value. */

/* Stores the value where the key has none. MC_EXISTS where it has one, or where another worker stored under the key behind the look. MC_MISSING,
 * where an item of another key with the same hash went behind the look: call again. */
uint32_t mc_add(mc_worker *worker, const uint8_t *key, size_t key_len, const uint8_t *value, size_t value_len, uint64_t tries);

/* Stores the value where the key has one. MC_MISSING where it has none. */
uint32_t mc_replace(mc_worker *worker, const uint8_t *key, size_t key_len, const uint8_t *value, size_t value_len, uint64_t tries);

/* Stores the value where the key's value has this version. MC_EXISTS where it has another one; MC_MISSING where the key has no value. */
uint32_t mc_compare_and_set(mc_worker *worker, const uint8_t *key, size_t key_len, const uint8_t *value, size_t value_len, uint64_t version,
                            uint64_t tries);

/* Deletes the key. MC_MISSING where it had no value; MC_HELD, MC_NO_MEMORY, MC_BAD_KEY, MC_CLOSED. */
uint32_t mc_delete(mc_worker *worker, const uint8_t *key, size_t key_len, uint64_t tries);

/* Deletes the key's value, where it has this version, as mc_get_with_version wrote it. MC_EXISTS, where the key has another version, which stays;
 * MC_MISSING, MC_HELD, MC_NO_MEMORY, MC_BAD_KEY, MC_CLOSED. */
uint32_t mc_compare_and_delete(mc_worker *worker, const uint8_t *key, size_t key_len, uint64_t version, uint64_t tries);

/* Makes the key's item the last one of its size to be evicted. MC_MISSING; MC_HELD, MC_NO_MEMORY, MC_BAD_KEY, MC_CLOSED. */
uint32_t mc_touch(mc_worker *worker, const uint8_t *key, size_t key_len, uint64_t tries);

/* Deletes every key of the cache, and writes how many to *count, while other workers go on: what was stored before the call began is gone. It goes
 * from one stripe to the next, and tries for the lock of each. MC_HELD: the stripes before one are cleared, and *count has how many keys were
 * deleted there. The next call begins at the first stripe, and counts what it deletes itself; so add these numbers up. MC_NO_MEMORY: the stripes
 * before one are cleared, and of that one some keys may be deleted; *count isn't written. MC_CLOSED. */
uint32_t mc_clear(mc_worker *worker, uint64_t tries, uint64_t *count);

/* Writes to *count how many items the cache has, as a sum over the stripes, of which it looks at one after another. MC_HELD, MC_CLOSED: nothing is
 * written. */
uint32_t mc_len(mc_worker *worker, uint64_t tries, uint64_t *count);

/* Copies the keys of a part of the cache to `out`, one behind another, each behind a byte with its length, and writes to *len how many bytes these
 * are. A part is a stripe of a shard. Both are counted from 0, and each key is in one part. First the part is listed under its lock, and then each
 * item is looked up: one that goes meanwhile is left out, and one that comes may be. MC_OUT_OF_RANGE where there is no such part; MC_TOO_SMALL,
 * where *len alone is written: give that room, and some more, as keys may come; MC_HELD, MC_NO_MEMORY, MC_CLOSED: nothing is written. */
uint32_t mc_keys(mc_worker *worker, uint64_t shard, uint64_t stripe, uint64_t tries, uint8_t *out, size_t room, uint64_t *len);

/* Does a window of each shard: call it about once a second. The chunks of items that are gone are put back. The shard's classes are looked at,
 * and a page may begin to move. Up to 16 turns of the move are done; a turn looks at `bulk` chunks. A window that other workers hold up is
 * counted in `held`, and the next call does it. MC_NO_MEMORY: it stopped at a shard, what was done stays, and *done is left alone; MC_CLOSED.
 * It never returns MC_HELD. */
uint32_t mc_tend(mc_tender *tender, uint64_t tries, mc_tended *done);

/* Writes what all shards have together, of each class to `classes`, class 1 first, and how many classes there are to *count. `room` is how many
 * classes fit into `classes`. One shard is counted after another, so not all at one moment. MC_TOO_SMALL where `room` is too small: *count
 * alone is written; MC_HELD, MC_NO_MEMORY, MC_CLOSED: nothing is written. */
uint32_t mc_stats(mc_tender *tender, uint64_t tries, mc_totals *totals, mc_class_stats *classes, size_t room, uint64_t *count);

/* Sets the mode of all shards. In mode 2 a store that evicts asks for a page of any class at once. The modes 0 and 1 are alike here, and mc_open
 * leaves mode 0. MC_OUT_OF_RANGE for another mode; MC_HELD, where some shards may have the mode already; MC_CLOSED. */
uint32_t mc_automove(mc_tender *tender, uint64_t mode, uint64_t tries);

/* Begins to move a page of the shard from class `src` to class `dst`; mc_tend does the turns. The first shard is 0. A `src` of 0 picks a class
 * with more than one page, and a `dst` of 0 is the shard's pool. MC_OUT_OF_RANGE where there is no such shard; MC_BUSY; MC_SAME_CLASS;
 * MC_BAD_CLASS, also where no class can be picked; MC_NO_SPARE; MC_HELD, MC_NO_MEMORY, MC_CLOSED. */
uint32_t mc_reassign(mc_tender *tender, uint64_t shard, uint64_t src, uint64_t dst, uint64_t tries);

/* Closes a handle. What only it led to is freed. MC_CLOSED where it was closed. */
uint32_t mc_close(mc_handle *handle);

/* Helpers that call again where other threads had the lock, behind a yield. That of mc_add also does so at MC_MISSING. */
#include <sched.h>
enum { MC_TRIES = 64 };

static inline uint32_t mc_get_again(mc_worker *worker, const uint8_t *key, size_t key_len, uint8_t *out, size_t room, uint64_t *len)
{
    uint32_t code;
    while ((code = mc_get(worker, key, key_len, MC_TRIES, out, room, len)) == MC_HELD)
        sched_yield();
    return code;
}

static inline uint32_t mc_get_with_version_again(mc_worker *worker, const uint8_t *key, size_t key_len, uint8_t *out, size_t room, uint64_t *len,
                                                 uint64_t *version)
{
    uint32_t code;
    while ((code = mc_get_with_version(worker, key, key_len, MC_TRIES, out, room, len, version)) == MC_HELD)
        sched_yield();
    return code;
}

static inline uint32_t mc_set_again(mc_worker *worker, const uint8_t *key, size_t key_len, const uint8_t *value, size_t value_len)
{
    uint32_t code;
    while ((code = mc_set(worker, key, key_len, value, value_len, MC_TRIES)) == MC_HELD)
        sched_yield();
    return code;
}

static inline uint32_t mc_set_or_keep_again(mc_worker *worker, const uint8_t *key, size_t key_len, const uint8_t *value, size_t value_len)
{
    uint32_t code;
    while ((code = mc_set_or_keep(worker, key, key_len, value, value_len, MC_TRIES)) == MC_HELD)
        sched_yield();
    return code;
}

static inline uint32_t mc_add_again(mc_worker *worker, const uint8_t *key, size_t key_len, const uint8_t *value, size_t value_len)
{
    uint32_t code;
    while ((code = mc_add(worker, key, key_len, value, value_len, MC_TRIES)) == MC_HELD || code == MC_MISSING)
        sched_yield();
    return code;
}

static inline uint32_t mc_replace_again(mc_worker *worker, const uint8_t *key, size_t key_len, const uint8_t *value, size_t value_len)
{
    uint32_t code;
    while ((code = mc_replace(worker, key, key_len, value, value_len, MC_TRIES)) == MC_HELD)
        sched_yield();
    return code;
}

static inline uint32_t mc_compare_and_set_again(mc_worker *worker, const uint8_t *key, size_t key_len, const uint8_t *value, size_t value_len,
                                                uint64_t version)
{
    uint32_t code;
    while ((code = mc_compare_and_set(worker, key, key_len, value, value_len, version, MC_TRIES)) == MC_HELD)
        sched_yield();
    return code;
}

static inline uint32_t mc_delete_again(mc_worker *worker, const uint8_t *key, size_t key_len)
{
    uint32_t code;
    while ((code = mc_delete(worker, key, key_len, MC_TRIES)) == MC_HELD)
        sched_yield();
    return code;
}

static inline uint32_t mc_compare_and_delete_again(mc_worker *worker, const uint8_t *key, size_t key_len, uint64_t version)
{
    uint32_t code;
    while ((code = mc_compare_and_delete(worker, key, key_len, version, MC_TRIES)) == MC_HELD)
        sched_yield();
    return code;
}

static inline uint32_t mc_touch_again(mc_worker *worker, const uint8_t *key, size_t key_len)
{
    uint32_t code;
    while ((code = mc_touch(worker, key, key_len, MC_TRIES)) == MC_HELD)
        sched_yield();
    return code;
}

/* *count has what all its calls deleted, those that returned MC_HELD and the last one; at another code than MC_OK it isn't written. */
static inline uint32_t mc_clear_again(mc_worker *worker, uint64_t *count)
{
    uint32_t code;
    uint64_t here = 0, all = 0;
    while ((code = mc_clear(worker, MC_TRIES, &here)) == MC_HELD) {
        all += here;
        sched_yield();
    }
    if (code == MC_OK)
        *count = all + here;
    return code;
}

static inline uint32_t mc_keys_again(mc_worker *worker, uint64_t shard, uint64_t stripe, uint8_t *out, size_t room, uint64_t *len)
{
    uint32_t code;
    while ((code = mc_keys(worker, shard, stripe, MC_TRIES, out, room, len)) == MC_HELD)
        sched_yield();
    return code;
}

static inline uint32_t mc_len_again(mc_worker *worker, uint64_t *count)
{
    uint32_t code;
    while ((code = mc_len(worker, MC_TRIES, count)) == MC_HELD)
        sched_yield();
    return code;
}

static inline uint32_t mc_stats_again(mc_tender *tender, mc_totals *totals, mc_class_stats *classes, size_t room, uint64_t *count)
{
    uint32_t code;
    while ((code = mc_stats(tender, MC_TRIES, totals, classes, room, count)) == MC_HELD)
        sched_yield();
    return code;
}

static inline uint32_t mc_automove_again(mc_tender *tender, uint64_t mode)
{
    uint32_t code;
    while ((code = mc_automove(tender, mode, MC_TRIES)) == MC_HELD)
        sched_yield();
    return code;
}

static inline uint32_t mc_reassign_again(mc_tender *tender, uint64_t shard, uint64_t src, uint64_t dst)
{
    uint32_t code;
    while ((code = mc_reassign(tender, shard, src, dst, MC_TRIES)) == MC_HELD)
        sched_yield();
    return code;
}

#ifdef __cplusplus
}
#endif

#endif
