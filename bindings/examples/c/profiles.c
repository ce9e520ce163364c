/* A small service: names of users from SQLite, through a cache in memory and on flash.
 *
 *     profiles FOLDER      the database and the flash are files there */
#include "database.h"
#include "kilambosetry_service.h"

#include <stdio.h>
#include <string.h>

static kilambosetry_service *cache = NULL;

/* The user's name: from the cache, or from the database, and then it is cached for an hour. That there is no such user is cached for
 * ten seconds. */
static bool name_of(int user, char *name, size_t name_len, size_t *len) {
    const uint8_t *key = (const uint8_t *)&user;
    kilambosetry_lease lease = KILAMBOSETRY_NO_LEASE;
    uint8_t status = kilambosetry_service_get_or_lease(cache, key, sizeof user, (uint8_t *)name, name_len, len, &lease, 1000);
    if (status == KILAMBOSETRY_DONE) return true;
    if (status == KILAMBOSETRY_ABSENT || status == KILAMBOSETRY_LOAD_FAILED) return false;
    enum loaded loaded = database_load(user, name, name_len, len); /* (whatever else the cache said, the database has it) */
    if (status != KILAMBOSETRY_LEASED) return loaded == LOADED;
    /* it isn't stored where the user was renamed meanwhile, and that is no fault */
    if (loaded == LOADED) kilambosetry_service_store(cache, &lease, key, sizeof user, (const uint8_t *)name, *len, 3600);
    else if (loaded == NO_SUCH_USER) kilambosetry_service_store_absent(cache, &lease, key, sizeof user, 10);
    else kilambosetry_service_fail(cache, &lease, key, sizeof user, "the database failed");
    return loaded == LOADED;
}

/* A change is begun before the commit, and ended behind it, whatever came of that. A database that can't say whether it has committed
 * would be told of by the last word. */
static bool rename_user(int user, const char *name) {
    const uint8_t *key = (const uint8_t *)&user;
    kilambosetry_change change = KILAMBOSETRY_NO_CHANGE;
    kilambosetry_service_begin_change(cache, &change, key, sizeof user);
    bool stored = database_store(user, name);
    kilambosetry_service_end_change(cache, &change, key, sizeof user, true);
    return stored;
}

int main(int words, char **word) {
    char database[4096], flash[4096], name[64];
    size_t len = 0;
    kilambosetry_service_options options = KILAMBOSETRY_SERVICE_OPTIONS;
    kilambosetry_service_stats stats;
    bool right = true;
    snprintf(database, sizeof database, "%s/users.db", words > 1 ? word[1] : ".");
    snprintf(flash, sizeof flash, "%s/flash", words > 1 ? word[1] : ".");
    options.memory = 1000000, options.flash = 100000000, options.mean_key = sizeof(int), options.mean_value = 16;
    uint8_t status = kilambosetry_service_open(&cache, flash, &options, NULL);
    if (status != KILAMBOSETRY_DONE || !database_open(database)) {
        fprintf(stderr, "profiles: %s\n", status == KILAMBOSETRY_DONE ? "no database" : kilambosetry_service_strerror(status));
        kilambosetry_service_close(cache);
        return 1;
    }
    right = rename_user(7, "Ada") && name_of(7, name, sizeof name, &len) && len == 3 && memcmp(name, "Ada", 3) == 0;
    right = right && name_of(7, name, sizeof name, &len) && rename_user(7, "Grace"); /* (it comes from the cache, and changes) */
    right = right && name_of(7, name, sizeof name, &len) && len == 5 && memcmp(name, "Grace", 5) == 0;
    right = right && !name_of(8, name, sizeof name, &len) && !name_of(8, name, sizeof name, &len);
    right = right && rename_user(8, "Alan") && name_of(8, name, sizeof name, &len) && len == 4;
    /* while the database can't be asked, a user isn't taken for one that there isn't; and what is cached is found */
    database_close();
    right = right && !name_of(9, name, sizeof name, &len) && name_of(7, name, sizeof name, &len);
    right = right && database_open(database) && database_store(9, "Edsger") && name_of(9, name, sizeof name, &len) && len == 6;
    kilambosetry_service_tell(cache, &stats);
    printf("%s: %d hit, %d loads\n", right ? "right" : "WRONG", (int)stats.hits_from_memory, (int)stats.leases);
    kilambosetry_service_close(cache);
    database_close();
    return right ? 0 : 1;
}
