/* Each request for memory is refused in turn, while one thread opens a cache, joins a worker, stores, adds, replaces, compares versions, reads,
 * deletes, moves pages, counts them, and closes all. Behind a refusal the key has what it had, a handle that wasn't filled is closed, what a call
 * was to write is left alone, and at the end no memory is left. It is linked with the wrappers of malloc, realloc and free that stand here. The
 * status is 0 where nothing was wrong. */
#include "noddrefil.h"
#include <stdio.h>
#include <stdlib.h>
#include <string.h>

void *__real_malloc(size_t size);
void *__real_realloc(void *old, size_t size);
void __real_free(void *old);
void *__wrap_malloc(size_t size);
void *__wrap_realloc(void *old, size_t size);
void __wrap_free(void *old);

/* How many requests were made, which of them is refused, and how many blocks weren't freed. */
static uint64_t requests, refused, live;

void *__wrap_malloc(size_t size)
{
    void *block = ++requests == refused ? NULL : __real_malloc(size);
    live += block != NULL;
    return block;
}

void *__wrap_realloc(void *old, size_t size)
{
    void *block = ++requests == refused ? NULL : __real_realloc(old, size);
    live += block != NULL && old == NULL;
    return block;
}

void __wrap_free(void *old)
{
    live -= old != NULL;
    __real_free(old);
}

static const mc_config shape = {.page = 1024, .limit = 4096, .first = 64, .num = 2, .den = 1, .max = 1024, .stripes = 4, .bulk = 8,
                                .shards = 2, .hash_first = 1, .hash_second = 2};
enum { KEYS = 24, LEN = 100, CLASSES = 4 };

/* The first byte that was stored last under each key. */
static uint8_t stored[KEYS];

/* Stores each key twice, and reads it: behind a refused set the key has no value. */
static uint64_t wrong_calls(mc_worker *worker, uint8_t begin)
{
    uint64_t wrong = 0, len = 0;
    uint8_t value[LEN], out[LEN];
    for (int step = 0; step < 2 * KEYS; step++) {
        uint8_t key = (uint8_t)(step % KEYS);
        memset(value, begin + step, sizeof value);
        uint32_t set = mc_set(worker, &key, 1, value, LEN, 1);
        uint32_t got = mc_get(worker, &key, 1, 1, out, LEN, &len);
        if (set == MC_OK)
            stored[key] = value[0];
        wrong += set != MC_OK && set != MC_NO_MEMORY;
        wrong += set == MC_NO_MEMORY ? got != MC_MISSING : got != MC_OK && got != MC_NO_MEMORY;
        wrong += got == MC_OK && (len != LEN || out[0] != stored[key] || out[LEN - 1] != stored[key]);
        wrong += mc_touch(worker, &key, 1, 1) == MC_HELD;
    }
    uint8_t last = KEYS - 1;
    uint32_t deleted = mc_delete(worker, &last, 1, 1);
    wrong += deleted != MC_OK && deleted != MC_MISSING && deleted != MC_NO_MEMORY;
    return wrong;
}

/* Adds, replaces and compares the value of each key in turn. A refused call leaves what there was, or nothing where an item was evicted. */
static uint64_t wrong_conditions(mc_worker *worker, uint8_t begin)
{
    uint64_t wrong = 0, len = 0, version = 0;
    uint8_t value[LEN], out[LEN];
    for (int step = 0; step < 3 * KEYS; step++) {
        uint8_t key = (uint8_t)(step / 3);
        uint32_t code, other, found = mc_get_with_version(worker, &key, 1, 1, out, LEN, &len, &version);
        memset(value, begin + step, sizeof value);
        if (step % 3 == 0)
            code = mc_add(worker, &key, 1, value, LEN, 1), other = MC_EXISTS;
        else if (step % 3 == 1)
            code = mc_replace(worker, &key, 1, value, LEN, 1), other = MC_MISSING;
        else
            code = mc_compare_and_set(worker, &key, 1, value, LEN, version, 1), other = MC_MISSING;
        if (code == MC_OK)
            stored[key] = value[0];
        wrong += code != MC_OK && code != other && code != MC_NO_MEMORY;
        wrong += found == MC_OK && code == MC_OK && other == MC_EXISTS;
        wrong += found == MC_MISSING && code == MC_OK && other == MC_MISSING;
        uint32_t got = mc_get_with_version(worker, &key, 1, 1, out, LEN, &len, &version);
        wrong += got != MC_OK && got != MC_NO_MEMORY && !(got == MC_MISSING && (code == MC_MISSING || code == MC_NO_MEMORY));
        wrong += got == MC_OK && (len != LEN || out[0] != stored[key] || out[LEN - 1] != stored[key]);
    }
    return wrong;
}

/* Windows, counts and moves. What is refused memory writes nothing. */
static uint64_t wrong_tending(mc_tender *tender)
{
    uint64_t wrong = 0;
    for (uint64_t step = 0; step < 12; step++) {
        mc_tended done = {7, 7, 7, 7, 7, 7};
        mc_totals totals = {7, 7, 7, 7, 7, 7, 7};
        mc_class_stats classes[CLASSES] = {{7, 7, 7, 7, 7}};
        uint64_t count = 7;
        uint32_t moved = mc_reassign(tender, step % shape.shards, 0, step % 5, 1);
        wrong += moved != MC_OK && moved != MC_BUSY && moved != MC_BAD_CLASS && moved != MC_NO_MEMORY;
        uint32_t tended = mc_tend(tender, 1, &done);
        wrong += tended != MC_OK && tended != MC_NO_MEMORY;
        wrong += tended == MC_OK ? done.held != 0 : done.began != 7 || done.held != 7;
        uint32_t counted = mc_stats(tender, 1, &totals, classes, CLASSES, &count);
        wrong += counted != MC_OK && counted != MC_NO_MEMORY;
        if (counted == MC_OK)
            wrong += count != CLASSES || classes[0].size != shape.first;
        else
            wrong += totals.granted != 7 || count != 7 || classes[0].size != 7;
        wrong += mc_automove(tender, step % 3, 1) != MC_OK;
    }
    return wrong;
}

/* A run from the first call to the last. The given calls store first, so they ask for most of the memory. */
static uint64_t wrong_codes(uint64_t (*wrong_stores)(mc_worker *, uint8_t))
{
    mc_worker first = {0}, second = {0};
    mc_tender tender = {0};
    uint32_t opened = mc_open(&shape, 2, &first, &tender);
    if (opened != MC_OK)
        return (opened != MC_NO_MEMORY) + (mc_close(&first) != MC_CLOSED) + (mc_close(&tender) != MC_CLOSED);
    uint32_t joined = mc_join(&first, &second);
    uint64_t wrong = wrong_stores(&first, 1) + wrong_tending(&tender) + wrong_calls(&first, 50) + wrong_tending(&tender);
    wrong += wrong_conditions(&first, 150);
    if (joined == MC_OK)
        wrong += wrong_stores(&second, 100) + (mc_close(&second) != MC_OK);
    else
        wrong += (joined != MC_NO_MEMORY) + (mc_close(&second) != MC_CLOSED);
    return wrong + (mc_close(&first) != MC_OK) + (mc_close(&tender) != MC_OK);
}

int main(void)
{
    uint64_t (*const stores[])(mc_worker *, uint8_t) = {wrong_calls, wrong_conditions};
    uint64_t wrong = 0, number = 0;
    for (size_t place = 0; place < 2; place++) {
        refused = requests = 0;
        wrong += wrong_codes(stores[place]);
        uint64_t all = requests;
        for (refused = 1; refused <= all; refused++) {
            requests = 0;
            uint64_t found = wrong_codes(stores[place]) + (live != 0);
            if (found)
                printf("request %llu refused: %llu wrong, %llu blocks left\n", (unsigned long long)refused, (unsigned long long)found,
                       (unsigned long long)live);
            wrong += found, live = 0;
        }
        number += all;
    }
    printf("%llu requests refused in turn, %llu wrong\n", (unsigned long long)number, (unsigned long long)wrong);
    return wrong != 0 || number == 0;
}
