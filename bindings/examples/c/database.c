/* Users in SQLite. It is one connection, which SQLite lets threads share. */
#include "database.h"

#include <sqlite3.h>
#include <string.h>

static sqlite3 *users = NULL;

bool database_open(const char *path) {
    const char *make = "CREATE TABLE IF NOT EXISTS users (number INTEGER PRIMARY KEY, name TEXT NOT NULL)";
    if (sqlite3_open_v2(path, &users, SQLITE_OPEN_READWRITE | SQLITE_OPEN_CREATE | SQLITE_OPEN_FULLMUTEX, NULL) == SQLITE_OK
        && sqlite3_exec(users, make, NULL, NULL, NULL) == SQLITE_OK) {
        return true;
    }
    database_close();
    return false;
}

void database_close(void) {
    sqlite3_close(users);
    users = NULL;
}

enum loaded database_load(int user, char *name, size_t name_len, size_t *len) {
    sqlite3_stmt *query = NULL;
    enum loaded loaded = NOT_LOADED;
    if (sqlite3_prepare_v2(users, "SELECT name FROM users WHERE number = ?", -1, &query, NULL) == SQLITE_OK
        && sqlite3_bind_int(query, 1, user) == SQLITE_OK) {
        int step = sqlite3_step(query);
        if (step == SQLITE_DONE) loaded = NO_SUCH_USER;
        if (step == SQLITE_ROW) {
            const void *text = sqlite3_column_blob(query, 0);
            *len = (size_t)sqlite3_column_bytes(query, 0);
            if (*len <= name_len && (text != NULL || *len == 0)) loaded = LOADED;
            if (loaded == LOADED && *len > 0) memcpy(name, text, *len);
        }
    }
    sqlite3_finalize(query);
    return loaded;
}

bool database_store(int user, const char *name) {
    sqlite3_stmt *query = NULL;
    bool stored = sqlite3_prepare_v2(users, "INSERT OR REPLACE INTO users VALUES (?, ?)", -1, &query, NULL) == SQLITE_OK
                  && sqlite3_bind_int(query, 1, user) == SQLITE_OK
                  && sqlite3_bind_text(query, 2, name, -1, SQLITE_TRANSIENT) == SQLITE_OK && sqlite3_step(query) == SQLITE_DONE;
    sqlite3_finalize(query);
    return stored;
}
