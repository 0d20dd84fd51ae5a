/* Inserts rows into a table of SQLite, one a commit, and says how many a second and how many bytes the files take for each.
 *
 *     commits FILE SECONDS BYTES
 *
 * The journal is a write-ahead log, and each commit is synced (synchronous=FULL): what ruffletuff's journal is timed against.
 * cc -O2 -o commits commits.c -lsqlite3
 */
#include <sqlite3.h>
#include <stdio.h>
#include <stdlib.h>
#include <string.h>
#include <sys/stat.h>
#include <time.h>

static double now(void) {
    struct timespec at;
    clock_gettime(CLOCK_MONOTONIC, &at);
    return at.tv_sec + at.tv_nsec / 1e9;
}

static void must(sqlite3 *db, int status, int wanted) {
    if (status != wanted) {
        fprintf(stderr, "%s\n", sqlite3_errmsg(db));
        exit(1);
    }
}

static long long size_of(const char *file, const char *tail) {
    char path[4096];
    struct stat found;
    snprintf(path, sizeof path, "%s%s", file, tail);
    return stat(path, &found) ? 0 : (long long)found.st_size;
}

int main(int count, char **words) {
    if (count != 4) {
        fprintf(stderr, "usage: commits FILE SECONDS BYTES\n");
        return 2;
    }
    double seconds = atof(words[2]);
    int bytes = atoi(words[3]);
    char *row = malloc(bytes);
    sqlite3 *db = 0;
    sqlite3_stmt *insert;
    memset(row, 'x', bytes);
    must(db, sqlite3_open(words[1], &db), SQLITE_OK);
    must(db, sqlite3_exec(db, "PRAGMA journal_mode=WAL; PRAGMA synchronous=FULL", 0, 0, 0), SQLITE_OK);
    must(db, sqlite3_exec(db, "CREATE TABLE entries (number INTEGER PRIMARY KEY, text BLOB)", 0, 0, 0), SQLITE_OK);
    must(db, sqlite3_prepare_v2(db, "INSERT INTO entries (text) VALUES (?)", -1, &insert, 0), SQLITE_OK);
    long long done = 0;
    double begun = now(), took = 0;
    while ((took = now() - begun) < seconds) {
        must(db, sqlite3_bind_blob(insert, 1, row, bytes, SQLITE_STATIC), SQLITE_OK);
        must(db, sqlite3_step(insert), SQLITE_DONE);
        must(db, sqlite3_reset(insert), SQLITE_OK);
        done++;
    }
    double all = size_of(words[1], "") + size_of(words[1], "-wal");
    printf("%.1f commits a second, %.1f bytes each\n", done / took, all / done);
    sqlite3_finalize(insert);
    sqlite3_close(db);
    free(row);
    return 0;
}
