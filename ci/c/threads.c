/* Threads store, read, delete and touch the same keys. Each value is a function of its key and of a number that it begins with, so a wrong byte
 * shows. They also add 1 to one counter, by its versions, and no addition is lost. One thread more has the tender: it does windows, counts pages,
 * and begins moves, until the others have ended. Every handle that is wrong is answered. Usage: threads THREADS CALLS. The status is 0 where no
 * byte and no sum was wrong. */
#include "noddrefil.h"
#include <pthread.h>
#include <stdio.h>
#include <stdlib.h>
#include <string.h>

enum { KEYS = 2048, MOST = 63, LONGEST = 1500, CLASSES = 256, LIVES = 1 << 16 };
static uint64_t calls;

/* What the thread with the tender has, and whether it is to end. */
static struct tending {
    pthread_mutex_t lock;
    mc_tender tender;
    uint64_t shards, windows, held, begun, wrong;
    int ends;
} tending = {.lock = PTHREAD_MUTEX_INITIALIZER};

/* The value of the counter. An eviction ends a life of the counter, and a thread that misses it begins another life at 1. */
struct counter {
    uint64_t life, sum;
};

/* How many lives began, how many additions each one had, and its highest sum. */
static struct counting {
    pthread_mutex_t lock;
    uint64_t lives, wrong, additions[LIVES], highest[LIVES];
} counting = {.lock = PTHREAD_MUTEX_INITIALIZER};
static const uint8_t counter_key[] = "counter";

struct thread {
    mc_worker worker;
    uint64_t number, found, missing, stored, refused, wrong;
};

static uint64_t next(uint64_t *state)
{
    *state ^= *state << 13, *state ^= *state >> 7, *state ^= *state << 17;
    return *state;
}

static size_t key_of(uint64_t number, uint8_t *key)
{
    return (size_t)sprintf((char *)key, "key:%llu", (unsigned long long)number);
}

/* The value of a key in a version: its version, and then bytes. */
static size_t value_of(uint64_t number, uint64_t version, uint8_t *value)
{
    size_t len = 8 + (number * 7 + version * 13) % (LONGEST - 8);
    memcpy(value, &version, 8);
    for (size_t place = 8; place < len; place++)
        value[place] = (uint8_t)(number + version * 3 + place);
    return len;
}

static int is_right(uint64_t number, const uint8_t *value, uint64_t len)
{
    uint8_t wanted[LONGEST];
    uint64_t version;
    if (len < 8)
        return 0;
    memcpy(&version, value, 8);
    return len == value_of(number, version, wanted) && !memcmp(value, wanted, len);
}

static uint64_t new_life(void)
{
    pthread_mutex_lock(&counting.lock);
    uint64_t life = counting.lives++;
    pthread_mutex_unlock(&counting.lock);
    return life;
}

/* Notes an addition that was stored. */
static void note(const struct counter *counter)
{
    pthread_mutex_lock(&counting.lock);
    if (counter->life < counting.lives && counter->life < LIVES) {
        counting.additions[counter->life]++;
        if (counting.highest[counter->life] < counter->sum)
            counting.highest[counter->life] = counter->sum;
    } else {
        counting.wrong++;
    }
    pthread_mutex_unlock(&counting.lock);
}

/* Adds 1 to the counter, until no other thread stores between look and store, and returns the code. */
static uint32_t count_up(mc_worker *worker)
{
    struct counter counter;
    uint8_t *value = (uint8_t *)&counter;
    uint64_t len = 0, version = 0;
    uint32_t code;
    do {
        code = mc_get_with_version_again(worker, counter_key, sizeof counter_key, value, sizeof counter, &len, &version);
        if (code == MC_OK) {
            counter.sum++;
            code = mc_compare_and_set_again(worker, counter_key, sizeof counter_key, value, sizeof counter, version);
        } else if (code == MC_MISSING) {
            counter = (struct counter){new_life(), 1};
            code = mc_add_again(worker, counter_key, sizeof counter_key, value, sizeof counter);
        }
    } while (code == MC_EXISTS || code == MC_MISSING);
    if (code == MC_OK)
        note(&counter);
    return code;
}

/* How many lives lost an addition, or had one too many. The last one may be there still, and has its highest sum. */
static uint64_t wrong_sums(mc_worker *worker)
{
    struct counter counter = {0};
    uint64_t len = 0, version = 0, wrong = counting.wrong;
    uint32_t code = mc_get_with_version_again(worker, counter_key, sizeof counter_key, (uint8_t *)&counter, sizeof counter, &len, &version);
    for (uint64_t life = 0; life < counting.lives && life < LIVES; life++)
        wrong += counting.additions[life] != counting.highest[life];
    wrong += code != MC_OK && code != MC_MISSING;
    wrong += code == MC_OK && (counter.life >= LIVES || counter.sum != counting.highest[counter.life]);
    return wrong;
}

static void *work(void *arg)
{
    struct thread *own = arg;
    uint64_t state = own->number * 0x9e3779b97f4a7c15u + 1;
    uint8_t key[32], value[LONGEST];
    for (uint64_t call = 0; call < calls; call++) {
        uint64_t drawn = next(&state), number = drawn % KEYS, kind = (drawn >> 32) % 100;
        size_t key_len = key_of(number, key);
        uint64_t len = 0;
        uint32_t code;
        if (kind == 0) {
            own->refused += count_up(&own->worker) != MC_OK;
            continue;
        }
        if (kind < 70) {
            code = mc_get_again(&own->worker, key, key_len, value, sizeof value, &len);
            if (code == MC_OK)
                own->found++, own->wrong += !is_right(number, value, len);
            else if (code == MC_MISSING)
                own->missing++;
            else
                own->refused++;
            continue;
        }
        if (kind < 95) {
            size_t value_len = value_of(number, drawn >> 40, value);
            code = mc_set_again(&own->worker, key, key_len, value, value_len);
            own->stored += code == MC_OK;
        } else if (kind < 98) {
            code = mc_delete_again(&own->worker, key, key_len);
        } else {
            code = mc_touch_again(&own->worker, key, key_len);
        }
        own->refused += code != MC_OK && code != MC_MISSING;
    }
    return NULL;
}

static int tending_ends(int ends)
{
    pthread_mutex_lock(&tending.lock);
    tending.ends |= ends;
    ends = tending.ends;
    pthread_mutex_unlock(&tending.lock);
    return ends;
}

/* Whether the numbers of the classes and of all agree. A page that moves is still its class's, so each granted page is a class's or in the pool.
 * Each shard is counted under its lock, so that holds while others store. */
static int agree(const mc_totals *totals, const mc_class_stats *classes, uint64_t count)
{
    uint64_t pages = totals->pool, wrong = totals->moving > tending.shards;
    for (uint64_t place = 0; place < count; place++) {
        pages += classes[place].pages;
        wrong += classes[place].free_chunks > classes[place].pages * classes[place].per_page;
        wrong += place && classes[place].size <= classes[place - 1].size;
    }
    return !wrong && pages == totals->granted;
}

/* Windows, counts and moves, one after another, until the other threads have ended. */
static void *tend(void *arg)
{
    static mc_class_stats classes[CLASSES];
    mc_tended done;
    mc_totals totals;
    (void)arg;
    for (uint64_t turn = 0; !tending_ends(0); turn++) {
        uint64_t count = 0;
        uint32_t code = mc_tend(&tending.tender, 1 + turn % MC_TRIES, &done);
        tending.windows++;
        tending.wrong += code != MC_OK;
        tending.held += code == MC_OK ? done.held : 0;
        code = mc_stats_again(&tending.tender, &totals, classes, CLASSES, &count);
        tending.wrong += code != MC_OK || !agree(&totals, classes, count);
        code = mc_reassign_again(&tending.tender, turn % tending.shards, turn % 3 ? 0 : 1 + turn % count, turn % (count + 1));
        tending.begun += code == MC_OK;
        tending.wrong += code != MC_OK && code != MC_BUSY && code != MC_BAD_CLASS && code != MC_NO_SPARE && code != MC_SAME_CLASS;
        tending.wrong += mc_automove_again(&tending.tender, turn % 3) != MC_OK;
        sched_yield();
    }
    return NULL;
}

/* What the tender's calls answer to handles and numbers that are wrong. The cache is new, so no class has a page to spare. */
static uint64_t wrong_tending(mc_worker *worker, mc_tender *tender)
{
    mc_tender none = {0}, *others[] = {&none, worker};
    mc_tended done = {7, 7, 7, 7, 7, 7};
    mc_totals totals = {7, 7, 7, 7, 7, 7, 7};
    mc_class_stats classes[CLASSES];
    uint64_t count = 7, wrong = 0;
    for (size_t place = 0; place < 2; place++) {
        wrong += mc_tend(others[place], 1, &done) != MC_CLOSED || done.held != 7;
        wrong += mc_stats(others[place], 1, &totals, classes, CLASSES, &count) != MC_CLOSED || totals.granted != 7 || count != 7;
        wrong += mc_automove(others[place], 1, 1) != MC_CLOSED;
        wrong += mc_reassign(others[place], 0, 0, 1, 1) != MC_CLOSED;
    }
    wrong += mc_stats(tender, 1, &totals, classes, 0, &count) != MC_TOO_SMALL || totals.granted != 7 || count < 2 || count > CLASSES;
    uint64_t known = count;
    wrong += mc_stats(tender, 1, &totals, classes, known - 1, &count) != MC_TOO_SMALL || totals.granted != 7 || count != known;
    wrong += mc_stats(tender, 1, &totals, classes, known, &count) != MC_OK || count != known || !agree(&totals, classes, count);
    wrong += mc_automove(tender, 3, 1) != MC_OUT_OF_RANGE || mc_automove(tender, UINT64_MAX, 1) != MC_OUT_OF_RANGE;
    wrong += mc_reassign(tender, tending.shards, 1, 2, 1) != MC_OUT_OF_RANGE || mc_reassign(tender, UINT64_MAX, 1, 2, 1) != MC_OUT_OF_RANGE;
    wrong += mc_reassign(tender, 0, known + 1, 1, 1) != MC_BAD_CLASS || mc_reassign(tender, 0, 1, known + 1, 1) != MC_BAD_CLASS;
    wrong += mc_reassign(tender, 0, UINT64_MAX, 1, 1) != MC_BAD_CLASS || mc_reassign(tender, 0, 1, UINT64_MAX, 1) != MC_BAD_CLASS;
    wrong += mc_reassign(tender, 0, 0, 1, 1) != MC_BAD_CLASS;
    wrong += mc_reassign(tender, 0, 1, 1, 1) != MC_SAME_CLASS;
    wrong += mc_reassign(tender, tending.shards - 1, 1, 2, 1) != MC_NO_SPARE;
    wrong += mc_tend(tender, 1, &done) != MC_OK || done.began || done.ended || done.held;
    wrong += mc_automove(tender, 2, 1) != MC_OK;
    return wrong;
}

/* Two keys are counted and cleared, and then none is there. */
static uint64_t wrong_walks(mc_worker *worker)
{
    uint8_t out[LONGEST] = {0}, keys[2] = {1, 2};
    uint64_t count = 7, len, wrong = 0;
    wrong += mc_clear_again(worker, &count) != MC_OK;
    wrong += mc_set(worker, &keys[0], 1, out, 1, 1) != MC_OK || mc_set(worker, &keys[1], 1, out, 1, 1) != MC_OK;
    wrong += mc_len_again(worker, &count) != MC_OK || count != 2;
    wrong += mc_len(worker, 0, &count) != MC_HELD || count != 2;
    wrong += mc_clear(worker, 0, &count) != MC_HELD || count != 0;
    wrong += mc_clear_again(worker, &count) != MC_OK || count != 2;
    wrong += mc_get(worker, &keys[0], 1, 1, out, 1, &len) != MC_MISSING || mc_get(worker, &keys[1], 1, 1, out, 1, &len) != MC_MISSING;
    wrong += mc_len_again(worker, &count) != MC_OK || count != 0;
    return wrong;
}

/* The key of one byte is listed in one part, behind its length, where there is room for it. */
static uint64_t wrong_keys(mc_worker *worker)
{
    uint8_t out[8] = {9}, key = 5;
    uint64_t count, shard, stripe, len = 7, all = 0, wrong = 0;
    uint32_t code;
    wrong += mc_clear_again(worker, &count) != MC_OK || mc_set(worker, &key, 1, &key, 1, 1) != MC_OK;
    for (shard = 0; mc_keys(worker, shard, 0, MC_TRIES, out, sizeof out, &len) != MC_OUT_OF_RANGE; shard++)
        for (stripe = 0; (code = mc_keys_again(worker, shard, stripe, out, 0, &len)) != MC_OUT_OF_RANGE; stripe++) {
            all += len;
            if (len == 0) {
                wrong += code != MC_OK;
                continue;
            }
            wrong += code != MC_TOO_SMALL || len != 2;
            wrong += mc_keys_again(worker, shard, stripe, out, sizeof out, &len) != MC_OK || len != 2 || out[0] != 1 || out[1] != key;
        }
    len = 7;
    wrong += mc_keys(worker, shard, 0, 1, out, sizeof out, &len) != MC_OUT_OF_RANGE || len != 7;
    wrong += mc_keys(worker, 0, 0, 0, out, sizeof out, &len) != MC_HELD || len != 7;
    return wrong + (all != 2);
}

/* The codes of handles that are closed, and of calls that are refused. */
static uint64_t wrong_codes(mc_worker *worker, mc_tender *tender)
{
    static const uint8_t large[20000];
    mc_worker none = {0};
    uint8_t out[LONGEST] = {0}, key[251] = {0};
    uint64_t len = 0, most = 0, wrong = 0;
    wrong += mc_max_value(&none, 1, &most) != MC_CLOSED || most != 0;
    wrong += mc_max_value(worker, 250, &most) != MC_OK || most == 0 || most > sizeof large;
    wrong += mc_set(worker, key, 250, large, most, 1) != MC_OK;
    wrong += mc_set(worker, key, 250, large, most + 1, 1) != MC_TOO_LARGE;
    wrong += mc_max_value(worker, sizeof large, &most) != MC_TOO_LARGE;
    wrong += mc_get(&none, key, 1, 1, out, 1, &len) != MC_CLOSED;
    wrong += mc_set(&none, key, 1, out, 1, 1) != MC_CLOSED;
    wrong += mc_set_or_keep(&none, key, 1, out, 1, 1) != MC_CLOSED;
    wrong += mc_delete(&none, key, 1, 1) != MC_CLOSED;
    wrong += mc_touch(&none, key, 1, 1) != MC_CLOSED;
    wrong += mc_clear(&none, 1, &len) != MC_CLOSED || mc_clear(tender, 1, &len) != MC_CLOSED || len != 0;
    wrong += mc_len(&none, 1, &len) != MC_CLOSED || mc_len(tender, 1, &len) != MC_CLOSED || len != 0;
    wrong += mc_keys(&none, 0, 0, 1, out, 1, &len) != MC_CLOSED || mc_keys(tender, 0, 0, 1, out, 1, &len) != MC_CLOSED || len != 0;
    wrong += mc_join(&none, &none) != MC_CLOSED;
    wrong += mc_close(&none) != MC_CLOSED;
    wrong += mc_get(tender, key, 1, 1, out, 1, &len) != MC_CLOSED;
    wrong += mc_get(worker, key, 0, 1, out, 1, &len) != MC_BAD_KEY;
    wrong += mc_get(worker, key, 251, 1, out, 1, &len) != MC_BAD_KEY;
    wrong += mc_set(worker, key, 250, out, 100, 1) != MC_OK;
    wrong += mc_get(worker, key, 250, 1, out, 99, &len) != MC_TOO_SMALL || len != 100;
    wrong += mc_get(worker, key, 250, 1, out, 100, &len) != MC_OK || len != 100;
    wrong += mc_get(worker, key, 249, 1, out, 100, &len) != MC_MISSING;
    wrong += mc_set_or_keep(worker, key, 250, large, sizeof large, 1) != MC_TOO_LARGE;
    wrong += mc_get(worker, key, 250, 1, out, 100, &len) != MC_OK || len != 100;
    wrong += mc_set_or_keep_again(worker, key, 250, out, 100) != MC_OK;
    wrong += mc_set(worker, key, 250, large, sizeof large, 1) != MC_TOO_LARGE;
    wrong += mc_get(worker, key, 250, 1, out, 100, &len) != MC_MISSING;
    wrong += mc_set(worker, key, 250, out, 100, 1) != MC_OK;
    wrong += mc_delete(worker, key, 250, 1) != MC_OK;
    wrong += mc_delete(worker, key, 250, 1) != MC_MISSING;
    wrong += mc_join(worker, &none) != MC_NO_WORKERS;
    wrong += wrong_walks(worker);
    return wrong + wrong_keys(worker);
}

/* The codes of the calls that look at what the key has, and at its version, before they store. */
static uint64_t wrong_versions(mc_worker *worker, mc_tender *tender)
{
    static const uint8_t large[20000];
    mc_worker none = {0}, *others[] = {&none, tender};
    uint8_t out[LONGEST] = {0}, key[251] = {0};
    uint64_t len = 7, version = UINT64_MAX, before, wrong = 0;
    for (size_t place = 0; place < 2; place++) {
        size_t bad_len = place ? 251 : 0;
        wrong += mc_get_with_version(others[place], key, 1, 1, out, 1, &len, &version) != MC_CLOSED;
        wrong += mc_add(others[place], key, 1, out, 1, 1) != MC_CLOSED;
        wrong += mc_replace(others[place], key, 1, out, 1, 1) != MC_CLOSED;
        wrong += mc_compare_and_set(others[place], key, 1, out, 1, version, 1) != MC_CLOSED;
        wrong += mc_compare_and_delete(others[place], key, 1, version, 1) != MC_CLOSED;
        wrong += mc_get_with_version(worker, key, bad_len, 1, out, 1, &len, &version) != MC_BAD_KEY;
        wrong += mc_add(worker, key, bad_len, out, 1, 1) != MC_BAD_KEY;
        wrong += mc_replace(worker, key, bad_len, out, 1, 1) != MC_BAD_KEY;
        wrong += mc_compare_and_set(worker, key, bad_len, out, 1, version, 1) != MC_BAD_KEY;
        wrong += mc_compare_and_delete(worker, key, bad_len, version, 1) != MC_BAD_KEY;
    }
    wrong += mc_get_with_version(worker, key, 250, 1, out, 100, &len, &version) != MC_MISSING || len != 7 || version != UINT64_MAX;
    wrong += mc_replace(worker, key, 250, out, 100, 1) != MC_MISSING;
    wrong += mc_compare_and_set(worker, key, 250, out, 100, version, 1) != MC_MISSING;
    wrong += mc_add(worker, key, 250, large, sizeof large, 1) != MC_TOO_LARGE;
    wrong += mc_add(worker, key, 250, out, 100, 1) != MC_OK;
    wrong += mc_add(worker, key, 250, out, 99, 1) != MC_EXISTS;
    wrong += mc_compare_and_set(worker, key, 250, out, 99, version, 1) != MC_EXISTS;
    wrong += mc_get_with_version(worker, key, 250, 1, out, 99, &len, &version) != MC_TOO_SMALL || len != 100 || version == UINT64_MAX;
    before = version, version = UINT64_MAX;
    wrong += mc_get_with_version(worker, key, 250, 1, out, 100, &len, &version) != MC_OK || len != 100 || version != before;
    wrong += mc_compare_and_set(worker, key, 250, out, 98, before, 1) != MC_OK;
    wrong += mc_compare_and_set(worker, key, 250, out, 97, before, 1) != MC_EXISTS;
    wrong += mc_get_with_version(worker, key, 250, 1, out, 100, &len, &version) != MC_OK || len != 98 || version == before;
    wrong += mc_replace(worker, key, 250, large, sizeof large, 1) != MC_TOO_LARGE;
    wrong += mc_replace(worker, key, 250, out, 96, 1) != MC_OK;
    wrong += mc_get(worker, key, 250, 1, out, 100, &len) != MC_OK || len != 96;
    wrong += mc_compare_and_delete(worker, key, 250, version, 1) != MC_EXISTS;
    wrong += mc_get_with_version(worker, key, 250, 1, out, 100, &len, &version) != MC_OK || len != 96;
    wrong += mc_compare_and_delete_again(worker, key, 250, version) != MC_OK;
    wrong += mc_compare_and_delete(worker, key, 250, version, 1) != MC_MISSING;
    wrong += mc_compare_and_set(worker, key, 250, out, 95, version, 1) != MC_MISSING;
    return wrong;
}

/* What the tender's calls answer once its handle is closed. */
static uint64_t wrong_behind_close(mc_tender *tender)
{
    mc_tended done;
    uint64_t wrong = mc_close(tender) != MC_OK;
    wrong += mc_close(tender) != MC_CLOSED;
    wrong += mc_tend(tender, 1, &done) != MC_CLOSED;
    return wrong;
}

int main(int count, char **words)
{
    static struct thread threads[MOST];
    static pthread_t ids[MOST];
    uint64_t number = count > 1 ? strtoull(words[1], 0, 10) : 4, wrong = 0, refused = 0, bytes = 0;
    mc_config config = {.hash_first = 1, .hash_second = 2};
    pthread_t tends;
    calls = count > 2 ? strtoull(words[2], 0, 10) : 10000;
    if (number < 1 || number > MOST || mc_config_for_bytes(&config, 1 << 20, 200, number) || mc_bytes(&config, number, &bytes))
        return 2;
    tending.shards = config.shards;
    if (mc_open(&config, number, &threads[0].worker, &tending.tender))
        return 2;
    for (uint64_t place = 1; place < number; place++)
        if (mc_join(&threads[0].worker, &threads[place].worker))
            return 2;
    wrong += wrong_tending(&threads[0].worker, &tending.tender) + wrong_codes(&threads[0].worker, &tending.tender);
    wrong += wrong_versions(&threads[0].worker, &tending.tender);
    pthread_create(&tends, NULL, tend, NULL);
    for (uint64_t place = 0; place < number; place++) {
        threads[place].number = place;
        pthread_create(&ids[place], NULL, work, &threads[place]);
    }
    for (uint64_t place = 0; place < number; place++)
        pthread_join(ids[place], NULL);
    wrong += wrong_sums(&threads[0].worker);
    for (uint64_t place = 0; place < number; place++) {
        wrong += threads[place].wrong, refused += threads[place].refused;
        wrong += mc_close(&threads[place].worker) != MC_OK;
        wrong += mc_close(&threads[place].worker) != MC_CLOSED;
    }
    tending_ends(1);
    pthread_join(tends, NULL);
    wrong += tending.wrong + wrong_behind_close(&tending.tender);
    printf("wrong %llu\n", (unsigned long long)wrong);
    fprintf(stderr, "refused %llu, lives of the counter %llu\n", (unsigned long long)refused, (unsigned long long)counting.lives);
    fprintf(stderr, "windows %llu, of shards held %llu, moves %llu\n", (unsigned long long)tending.windows, (unsigned long long)tending.held,
            (unsigned long long)tending.begun);
    return wrong != 0;
}
