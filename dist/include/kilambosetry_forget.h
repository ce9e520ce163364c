/* Calls that wait, given up: their replies are taken and dropped as they come, so that none is owed for good and none keeps a
 * value alive. It is C over `kilambosetry_take_reply`, in this header alone.
 *
 *     kilambosetry_forgotten forgotten = KILAMBOSETRY_NONE_FORGOTTEN;
 *     ...
 *     kilambosetry_forget(&cache, &forgotten, call);       // the time for the call is over
 *     kilambosetry_drop_replies(&cache, &forgotten);       // after each job that ended
 *     ...
 *     kilambosetry_forgotten_free(&forgotten);
 *
 * What is forgotten belongs to one cache, and is given to one call at a time, as the cache is.
 */
#ifndef KILAMBOSETRY_FORGET_H
#define KILAMBOSETRY_FORGET_H

#include <stdlib.h>

#include "kilambosetry.h"

#ifdef __cplusplus
extern "C" {
#endif

/* The numbers of calls that were given up and still wait, `len` of them, and how many there is room for. */
typedef struct {
    uint64_t *calls;
    size_t len;
    size_t room;
} kilambosetry_forgotten;

#define KILAMBOSETRY_NONE_FORGOTTEN {NULL, 0, 0}

/* Drops the replies that came for calls that were given up. One for which the cache is out of memory is tried again by
 * the next call. It asks for each that still waits. */
static inline void kilambosetry_drop_replies(kilambosetry_cache *cache, kilambosetry_forgotten *forgotten) {
    size_t kept = 0;
    for (size_t at = 0; at < forgotten->len; at++) {
        kilambosetry_value value = KILAMBOSETRY_NONE;
        uint8_t status = kilambosetry_take_reply(cache, forgotten->calls[at], &value);
        kilambosetry_value_free(&value);
        if (status == KILAMBOSETRY_NOT_READY || status == KILAMBOSETRY_NO_MEMORY) {
            forgotten->calls[kept++] = forgotten->calls[at];
        }
    }
    forgotten->len = kept;
}

/* Gives up a call that waits, by its number: DONE. A reply that is there is dropped at once, and another when it has come, by
 * `kilambosetry_drop_replies`. What an add was to store is stored all the same. Refused with UNKNOWN_CALL where no reply is
 * owed to the call, and with NO_MEMORY; then the call isn't given up. */
static inline uint8_t kilambosetry_forget(kilambosetry_cache *cache, kilambosetry_forgotten *forgotten, uint64_t call) {
    if (forgotten->len == forgotten->room) {
        size_t room = forgotten->room == 0 ? 8 : 2 * forgotten->room;
        uint64_t *calls = (uint64_t *)realloc(forgotten->calls, room * sizeof *calls);
        if (calls == NULL) return KILAMBOSETRY_NO_MEMORY;
        forgotten->calls = calls;
        forgotten->room = room;
    }
    kilambosetry_value value = KILAMBOSETRY_NONE;
    uint8_t status = kilambosetry_take_reply(cache, call, &value);
    kilambosetry_value_free(&value);
    switch (status) {
    case KILAMBOSETRY_NOT_READY:
        forgotten->calls[forgotten->len++] = call;
        return KILAMBOSETRY_DONE;
    case KILAMBOSETRY_MISS:
    case KILAMBOSETRY_EXISTS:
        return KILAMBOSETRY_DONE; /* (that was the reply) */
    default:
        return status;
    }
}

/* Frees the list. The replies of calls in it stay owed as long as the cache is there. */
static inline void kilambosetry_forgotten_free(kilambosetry_forgotten *forgotten) {
    free(forgotten->calls);
    forgotten->calls = NULL;
    forgotten->len = forgotten->room = 0;
}

#ifdef __cplusplus
}
#endif

#endif
