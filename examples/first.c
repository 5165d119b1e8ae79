/* Two threads store and read bytes in one cache of 16 MiB. */
#include "noddrefil.h"
#include <pthread.h>
#include <stdio.h>
#include <string.h>

static void *work(void *arg)
{
    mc_worker *worker = arg;
    const uint8_t *key = (const uint8_t *)"greeting", *value = (const uint8_t *)"hello";
    uint8_t out[64];
    uint64_t len = 0;
    uint32_t stored = mc_set_again(worker, key, 8, value, 5);
    uint32_t found = mc_get_again(worker, key, 8, out, sizeof out, &len);
    printf("stored %u, found %u: %.*s\n", stored, found, (int)len, (const char *)out);
    return NULL;
}

int main(void)
{
    mc_config config = {.hash_first = 1, .hash_second = 2};
    mc_worker workers[2] = {{0}};
    mc_tender tender = {0};
    pthread_t other;
    if (mc_config_for_bytes(&config, 16 << 20, 100, 2) || mc_open(&config, 2, &workers[0], &tender) || mc_join(&workers[0], &workers[1]))
        return 1;
    pthread_create(&other, NULL, work, &workers[1]);
    work(&workers[0]);
    pthread_join(other, NULL);
    return mc_close(&workers[0]) || mc_close(&workers[1]) || mc_close(&tender);
}
