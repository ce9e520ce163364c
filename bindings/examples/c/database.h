/* The database of the example: names of users, by their number. */
#ifndef DATABASE_H
#define DATABASE_H

#include <stdbool.h>
#include <stddef.h>

/* Whether it is open. */
bool database_open(const char *path);
void database_close(void);

enum loaded {
    LOADED,
    NO_SUCH_USER,
    NOT_LOADED, /* the database failed, or there is no room for the name: nothing is known of the user */
};

/* Copies the user's name to `name`, and tells its length. */
enum loaded database_load(int user, char *name, size_t name_len, size_t *len);

/* Gives the user this name, and answers whether it did. It is committed when the call is back. */
bool database_store(int user, const char *name);

#endif
