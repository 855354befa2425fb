/* Measures stores that a program holds itself, beside `tardis run` over the same chain of transactions (`chain` of speed.py).
   `bench/run` builds and calls it.

   usage: embedded FOLDER [COUNT [KEYS ..]]

   A transaction begins, gets a key, puts a value of 32 bytes to it, and commits: COUNT times (16,000 where nothing is said), over
   so many KEYS in turn (1, and then 4,000), which are there before. The stores are LMDB and BerkeleyDB, each where its header was
   there when this was built. Neither waits for the disk (MDB_NOSYNC, DB_TXN_NOSYNC): what was committed last may be lost with
   the machine. LMDB either writes its pages to its file or changes them in its map (MDB_WRITEMAP), which is far faster, and which
   a stray pointer of the program can spoil. Each run makes a folder in FOLDER, and leaves it. Each figure is the best of five. */

#include <errno.h>
#include <stdio.h>
#include <stdlib.h>
#include <string.h>
#include <time.h>
#include <unistd.h>

#if __has_include(<lmdb.h>)
#include <lmdb.h>
#define HAS_LMDB
#endif
#if __has_include(<db.h>)
#include <db.h>
#define HAS_BERKELEY
#endif

enum { NAME = 24, RUNS = 5, LONGEST = 4096, MOST_KEYS = 99999 };

static const char value[] = "vvvvvvvvvvvvvvvvvvvvvvvvvvvvvvvv";

/* A store that can be opened in a folder, do one transaction (whose get may find nothing where it needn't) and be closed. */
struct store {
    const char *name;
    void (*open)(const char *folder);
    void (*transact)(const char *key, int must_find);
    void (*close)(void);
};

/* Ends the program where a call failed. */
static void check(int status, const char *what) {
    if (status != 0) {
        fprintf(stderr, "embedded: %s: status %d, %s\n", what, status, strerror(errno));
        exit(1);
    }
}

static void check_value(size_t count, const void *bytes) {
    check(count != sizeof value - 1 || memcmp(bytes, value, count) != 0, "another value was read");
}

#ifdef HAS_LMDB
static MDB_env *environment;
static MDB_dbi table;

static void open_lmdb(const char *folder, unsigned flags) {
    MDB_txn *txn;
    check(mdb_env_create(&environment), "mdb_env_create");
    check(mdb_env_set_mapsize(environment, (size_t)1 << 30), "mdb_env_set_mapsize");
    check(mdb_env_open(environment, folder, MDB_NOSYNC | flags, 0600), "mdb_env_open");
    check(mdb_txn_begin(environment, NULL, 0, &txn), "mdb_txn_begin");
    check(mdb_dbi_open(txn, NULL, 0, &table), "mdb_dbi_open");
    check(mdb_txn_commit(txn), "mdb_txn_commit");
}

static void open_lmdb_file(const char *folder) {
    open_lmdb(folder, 0);
}

static void open_lmdb_map(const char *folder) {
    open_lmdb(folder, MDB_WRITEMAP);
}

static void transact_lmdb(const char *key, int must_find) {
    MDB_txn *txn;
    MDB_val at = {.mv_size = strlen(key), .mv_data = (void *)key}, found, put = {.mv_size = sizeof value - 1, .mv_data = (void *)value};
    check(mdb_txn_begin(environment, NULL, 0, &txn), "mdb_txn_begin");
    int status = mdb_get(txn, table, &at, &found);
    if (must_find || status != MDB_NOTFOUND) {
        check(status, "mdb_get");
        check_value(found.mv_size, found.mv_data);
    }
    check(mdb_put(txn, table, &at, &put, 0), "mdb_put");
    check(mdb_txn_commit(txn), "mdb_txn_commit");
}

static void close_lmdb(void) {
    mdb_env_close(environment);
}
#endif

#ifdef HAS_BERKELEY
static DB_ENV *home;
static DB *tree;

static void open_berkeley(const char *folder) {
    check(db_env_create(&home, 0), "db_env_create");
    check(home->set_cachesize(home, 0, 64 << 20, 1), "set_cachesize");
    check(home->set_flags(home, DB_TXN_NOSYNC, 1), "set_flags");
    check(home->open(home, folder, DB_CREATE | DB_PRIVATE | DB_INIT_MPOOL | DB_INIT_LOCK | DB_INIT_LOG | DB_INIT_TXN, 0600), "open the environment");
    check(db_create(&tree, home, 0), "db_create");
    check(tree->open(tree, NULL, "table", NULL, DB_BTREE, DB_CREATE | DB_AUTO_COMMIT, 0600), "open the tree");
}

static void transact_berkeley(const char *key, int must_find) {
    DB_TXN *txn;
    DBT at = {.data = (void *)key, .size = (u_int32_t)strlen(key)}, found = {0}, put = {.data = (void *)value, .size = sizeof value - 1};
    check(home->txn_begin(home, NULL, &txn, 0), "txn_begin");
    int status = tree->get(tree, txn, &at, &found, DB_RMW);
    if (must_find || status != DB_NOTFOUND) {
        check(status, "get");
        check_value(found.size, found.data);
    }
    check(tree->put(tree, txn, &at, &put, 0), "put");
    check(txn->commit(txn, 0), "commit");
}

static void close_berkeley(void) {
    check(tree->close(tree, DB_NOSYNC), "close the tree");
    check(home->close(home, 0), "close the environment");
}
#endif

static const struct store stores[] = {
#ifdef HAS_LMDB
    {"LMDB, no sync", open_lmdb_file, transact_lmdb, close_lmdb},
    {"LMDB, no sync, in its map", open_lmdb_map, transact_lmdb, close_lmdb},
#endif
#ifdef HAS_BERKELEY
    {"BerkeleyDB, no sync", open_berkeley, transact_berkeley, close_berkeley},
#endif
    {0},
};

static double now(void) {
    struct timespec time;
    clock_gettime(CLOCK_MONOTONIC, &time);
    return (double)time.tv_sec + (double)time.tv_nsec / 1e9;
}

/* The seconds of so many transactions, in a store of its own. */
static double run(const struct store *store, const char *folder, size_t count, const char (*keys)[NAME], size_t many) {
    char place[LONGEST];
    snprintf(place, sizeof place, "%s/embedded-XXXXXX", folder);
    check(mkdtemp(place) == NULL, place);
    store->open(place);
    for (size_t i = 0; i < many; i++) {
        store->transact(keys[i], 0);
    }
    double began = now();
    for (size_t i = 0; i < count; i++) {
        store->transact(keys[i % many], 1);
    }
    double spent = now() - began;
    store->close();
    return spent;
}

static void measure(const struct store *store, const char *folder, size_t count, size_t many) {
    static char keys[MOST_KEYS][NAME];
    for (size_t i = 0; i < many; i++) {
        snprintf(keys[i], NAME, "k%05zu", i);
    }
    double least = run(store, folder, count, keys, many);
    for (int again = 1; again < RUNS; again++) {
        double spent = run(store, folder, count, keys, many);
        least = spent < least ? spent : least;
    }
    char what[LONGEST];
    snprintf(what, sizeof what, "%s, chain %zu, %zu keys", store->name, count, many);
    printf("%-48s %9.4f s %10.0f transactions a second\n", what, least, (double)count / least);
    fflush(stdout);
}

int main(int count, char **words) {
    size_t transactions = count > 2 ? strtoul(words[2], NULL, 10) : 16000;
    if (count < 2 || transactions == 0) {
        fprintf(stderr, "usage: embedded FOLDER [COUNT [KEYS ..]]\n");
        return 1;
    }
    char *usual[] = {"1", "4000"};
    char **keys = count > 3 ? words + 3 : usual;
    int sizes = count > 3 ? count - 3 : 2;
    for (int size = 0; size < sizes; size++) {
        size_t many = strtoul(keys[size], NULL, 10);
        check(many == 0 || many > MOST_KEYS, "KEYS is a number from 1 to 99,999");
        for (const struct store *store = stores; store->name != NULL; store++) {
            measure(store, words[1], transactions, many);
        }
    }
    return 0;
}
