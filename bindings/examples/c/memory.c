/* The library by itself: a cache in memory, in one thread. */
#include "kilambosetry.h"

#include <stdio.h>
#include <string.h>
#include <time.h>

/* Gets the key's value, and tells what came of that. */
static uint8_t show(kilambosetry_cache *cache, const uint8_t *key, size_t key_len) {
    uint8_t out[64];
    size_t len = 0;
    uint8_t status = kilambosetry_get(cache, key, key_len, out, sizeof out, &len);
    switch (status) {
    case KILAMBOSETRY_DONE: printf("%.*s\n", (int)len, (const char *)out); break;
    case KILAMBOSETRY_MISS: puts("it is to be loaded"); break;
    case KILAMBOSETRY_SHORT: printf("it has %zu bytes\n", len); break;
    default: puts(kilambosetry_strerror(status));
    }
    return status;
}

int main(void) {
    const uint8_t key[] = "user:7", value[] = "Ada";
    kilambosetry_pool pools[] = {{64000000, 100000}};
    kilambosetry_cache cache = KILAMBOSETRY_NONE;
    uint8_t status = kilambosetry_new(&cache, pools, 1);
    if (status != KILAMBOSETRY_DONE) {
        fprintf(stderr, "%s\n", kilambosetry_strerror(status));
        return 1;
    }
    kilambosetry_tick(&cache, (uint64_t)time(NULL)); /* the second that it is */
    status = kilambosetry_set(&cache, 0, key, strlen("user:7"), value, strlen("Ada"), 3600);
    bool right = status == KILAMBOSETRY_DONE && show(&cache, key, strlen("user:7")) == KILAMBOSETRY_DONE;
    right = right && show(&cache, key, strlen("user")) == KILAMBOSETRY_MISS;
    kilambosetry_free(&cache);
    return right ? 0 : 1;
}
