/* Durable updates and reads by callers in threads, through one peer, which is picked when it is built:
 * -DLMDB (link lmdb), -DSQLITE (sqlite3), -DROCKSDB (rocksdb), -DPOSTGRESQL (pq) or -DREDIS. Link pthread.
 * Built and run by peers.sh.
 *
 * Usage: peer PLACE fill|put|group|get CALLERS TIMES. PLACE is the store's folder, empty before `fill`, or
 * that of a server's socket. `fill` gives keys 0 to 999 the value 1, and prints nothing; `put` gives one of
 * them another value, and is answered once that is durable, as the peer promises it; `group` gives sixteen
 * keys other values in one transaction; `get` tells the value of one. Each caller makes TIMES updates or
 * reads, one after another; of `group` they are a multiple of 16. Prints the seconds from the moment that
 * all callers have opened or connected to the last answer; the clock is read once this thread is awake,
 * which may be a moment after the callers are. Ends with 1, and a line, where anything is not as it must
 * be. After 100 seconds a signal ends it. */
#include <pthread.h>
#include <stdint.h>
#include <stdio.h>
#include <stdlib.h>
#include <string.h>
#include <time.h>
#include <unistd.h>

enum { KEYS = 1000, MOST = 64, GROUP = 16 };

typedef struct {
    uint64_t key, value;
} pair;

static void must(int holds, const char *what) {
    if (!holds) {
        fprintf(stderr, "peer: %s\n", what);
        exit(1);
    }
}

typedef struct caller caller;
static void open_store(const char *place);
static void open_caller(caller *c, const char *place);
/* Does all these updates as one transaction. */
static void put(caller *c, const pair *pairs, int count);
static uint64_t get(caller *c, uint64_t key);

#ifdef LMDB
#include <lmdb.h>

/* One environment and one map; each commit is synced, which is its default. A reader renews its transaction for each read. */
static MDB_env *env;
static MDB_dbi map;
struct caller {
    MDB_txn *reading;
};

static void open_store(const char *place) {
    MDB_txn *txn;
    must(!mdb_env_create(&env) && !mdb_env_set_mapsize(env, 64 << 20) && !mdb_env_set_maxreaders(env, 126), "env");
    must(!mdb_env_open(env, place, 0, 0644), "env_open");
    must(!mdb_txn_begin(env, NULL, 0, &txn) && !mdb_dbi_open(txn, NULL, MDB_INTEGERKEY, &map) && !mdb_txn_commit(txn), "dbi_open");
}
static void open_caller(caller *c, const char *place) {
    (void)place;
    must(!mdb_txn_begin(env, NULL, MDB_RDONLY, &c->reading), "txn_begin for reading");
    mdb_txn_reset(c->reading);
}
static void put(caller *c, const pair *pairs, int count) {
    (void)c;
    MDB_txn *txn;
    must(!mdb_txn_begin(env, NULL, 0, &txn), "txn_begin");
    for (const pair *p = pairs; p < pairs + count; p++) {
        MDB_val k = {sizeof p->key, (void *)&p->key}, v = {sizeof p->value, (void *)&p->value};
        must(!mdb_put(txn, map, &k, &v, 0), "put");
    }
    must(!mdb_txn_commit(txn), "commit");
}
static uint64_t get(caller *c, uint64_t key) {
    MDB_val k = {sizeof key, &key}, v;
    uint64_t value;
    must(!mdb_txn_renew(c->reading), "renew");
    must(!mdb_get(c->reading, map, &k, &v) && v.mv_size == sizeof value, "get");
    memcpy(&value, v.mv_data, sizeof value);
    mdb_txn_reset(c->reading);
    return value;
}
#endif

#ifdef SQLITE
#include <sqlite3.h>

/* A connection for each caller, in WAL mode, where each commit is synced. Writers queue at a lock of this program, since those that find the database busy would sleep. */
static pthread_mutex_t writer = PTHREAD_MUTEX_INITIALIZER;
struct caller {
    sqlite3 *db;
    sqlite3_stmt *put, *get;
};

static void connect_to(caller *c, const char *place) {
    char file[4096];
    snprintf(file, sizeof file, "%s/data.db", place);
    must(sqlite3_open(file, &c->db) == SQLITE_OK, "open");
    sqlite3_busy_timeout(c->db, 60000);
    must(sqlite3_exec(c->db, "PRAGMA journal_mode=WAL; PRAGMA synchronous=FULL; CREATE TABLE IF NOT EXISTS map (key INTEGER PRIMARY KEY, value INTEGER NOT NULL)", NULL, NULL, NULL) == SQLITE_OK, "pragma");
    must(sqlite3_prepare_v2(c->db, "INSERT INTO map VALUES (?1, ?2) ON CONFLICT (key) DO UPDATE SET value = ?2", -1, &c->put, NULL) == SQLITE_OK, "prepare put");
    must(sqlite3_prepare_v2(c->db, "SELECT value FROM map WHERE key = ?1", -1, &c->get, NULL) == SQLITE_OK, "prepare get");
}
static void open_store(const char *place) {
    (void)place;
}
static void open_caller(caller *c, const char *place) {
    pthread_mutex_lock(&writer);
    connect_to(c, place);
    pthread_mutex_unlock(&writer);
}
static void put(caller *c, const pair *pairs, int count) {
    pthread_mutex_lock(&writer);
    must(count == 1 || sqlite3_exec(c->db, "BEGIN", NULL, NULL, NULL) == SQLITE_OK, "begin");
    for (const pair *p = pairs; p < pairs + count; p++) {
        sqlite3_bind_int64(c->put, 1, (sqlite3_int64)p->key);
        sqlite3_bind_int64(c->put, 2, (sqlite3_int64)p->value);
        must(sqlite3_step(c->put) == SQLITE_DONE, "step");
        must(sqlite3_reset(c->put) == SQLITE_OK, "reset");
    }
    must(count == 1 || sqlite3_exec(c->db, "COMMIT", NULL, NULL, NULL) == SQLITE_OK, "commit");
    pthread_mutex_unlock(&writer);
}
static uint64_t get(caller *c, uint64_t key) {
    sqlite3_bind_int64(c->get, 1, (sqlite3_int64)key);
    must(sqlite3_step(c->get) == SQLITE_ROW, "step");
    uint64_t value = (uint64_t)sqlite3_column_int64(c->get, 0);
    must(sqlite3_reset(c->get) == SQLITE_OK, "reset");
    return value;
}
#endif

#ifdef ROCKSDB
#include <rocksdb/c.h>

/* One database with default options, but that each write is synced. It groups the writes of its threads itself. */
static rocksdb_t *db;
static rocksdb_writeoptions_t *writing;
static rocksdb_readoptions_t *reading;
struct caller {
    rocksdb_writebatch_t *batch;
};

static void open_store(const char *place) {
    char *error = NULL;
    rocksdb_options_t *options = rocksdb_options_create();
    rocksdb_options_set_create_if_missing(options, 1);
    db = rocksdb_open(options, place, &error);
    must(!error, error);
    writing = rocksdb_writeoptions_create();
    rocksdb_writeoptions_set_sync(writing, 1);
    reading = rocksdb_readoptions_create();
}
static void open_caller(caller *c, const char *place) {
    (void)place;
    c->batch = rocksdb_writebatch_create();
}
static void put(caller *c, const pair *pairs, int count) {
    char *error = NULL;
    rocksdb_writebatch_clear(c->batch);
    for (const pair *p = pairs; p < pairs + count; p++)
        rocksdb_writebatch_put(c->batch, (const char *)&p->key, sizeof p->key, (const char *)&p->value, sizeof p->value);
    rocksdb_write(db, writing, c->batch, &error);
    must(!error, error);
}
static uint64_t get(caller *c, uint64_t key) {
    (void)c;
    char *error = NULL;
    size_t len = 0;
    uint64_t value;
    rocksdb_pinnableslice_t *found = rocksdb_get_pinned(db, reading, (const char *)&key, sizeof key, &error);
    const char *bytes = rocksdb_pinnableslice_value(found, &len);
    must(!error && len == sizeof value, "get");
    memcpy(&value, bytes, sizeof value);
    rocksdb_pinnableslice_destroy(found);
    return value;
}
#endif

#ifdef POSTGRESQL
#include <postgresql/libpq-fe.h>

/* A connection for each caller to a server's socket on this machine, and prepared statements. The rows are there before the first update. A transaction of sixteen is 18 commands, each of which waits for its answer. */
struct caller {
    PGconn *server;
};

/* Ends unless the result is of that kind; else hands it on. */
static PGresult *look(caller *c, PGresult *result, ExecStatusType kind) {
    must(PQresultStatus(result) == kind, PQerrorMessage(c->server));
    return result;
}
static void say(caller *c, const char *command) {
    PQclear(look(c, PQexec(c->server, command), PGRES_COMMAND_OK));
}
static void connect_to(caller *c, const char *place) {
    char where[4096];
    snprintf(where, sizeof where, "host=%s user=peer dbname=postgres options='-c client_min_messages=warning'", place);
    c->server = PQconnectdb(where);
    must(PQstatus(c->server) == CONNECTION_OK, PQerrorMessage(c->server));
}
static void open_store(const char *place) {
    caller c;
    connect_to(&c, place);
    say(&c, "CREATE TABLE IF NOT EXISTS map (key bigint PRIMARY KEY, value bigint NOT NULL)");
    say(&c, "INSERT INTO map SELECT generate_series(0, 999), 1 ON CONFLICT DO NOTHING");
    PQfinish(c.server);
}
static void open_caller(caller *c, const char *place) {
    connect_to(c, place);
    PQclear(look(c, PQprepare(c->server, "put", "UPDATE map SET value = $2 WHERE key = $1", 2, NULL), PGRES_COMMAND_OK));
    PQclear(look(c, PQprepare(c->server, "get", "SELECT value FROM map WHERE key = $1", 1, NULL), PGRES_COMMAND_OK));
}
static void put(caller *c, const pair *pairs, int count) {
    if (count > 1) say(c, "BEGIN");
    for (const pair *p = pairs; p < pairs + count; p++) {
        char k[32], v[32];
        const char *words[2] = {k, v};
        sprintf(k, "%llu", (unsigned long long)p->key);
        sprintf(v, "%llu", (unsigned long long)p->value);
        PGresult *done = look(c, PQexecPrepared(c->server, "put", 2, words, NULL, NULL, 0), PGRES_COMMAND_OK);
        must(!strcmp(PQcmdTuples(done), "1"), "no row was changed");
        PQclear(done);
    }
    if (count > 1) say(c, "COMMIT");
}
static uint64_t get(caller *c, uint64_t key) {
    char k[32];
    const char *words[1] = {k};
    sprintf(k, "%llu", (unsigned long long)key);
    PGresult *found = look(c, PQexecPrepared(c->server, "get", 1, words, NULL, NULL, 0), PGRES_TUPLES_OK);
    must(PQntuples(found) == 1, "get");
    uint64_t value = strtoull(PQgetvalue(found, 0, 0), NULL, 10);
    PQclear(found);
    return value;
}
#endif

#ifdef REDIS
#include <sys/socket.h>
#include <sys/un.h>

/* A connection for each caller to a server's socket on this machine, which syncs its log before it answers. A transaction is sent at once, and its answers are read together. */
struct caller {
    int fd;
};

static void open_store(const char *place) {
    (void)place;
}
static void open_caller(caller *c, const char *place) {
    struct sockaddr_un at = {.sun_family = AF_UNIX};
    must(strlen(place) + strlen("/socket") < sizeof at.sun_path, "the socket's name is too long");
    sprintf(at.sun_path, "%s/socket", place);
    c->fd = socket(AF_UNIX, SOCK_STREAM, 0);
    must(c->fd >= 0 && !connect(c->fd, (struct sockaddr *)&at, sizeof at), "connect");
}
/* Sends commands and reads their answer, of so many lines. */
static void ask(caller *c, const char *command, int len, char answer[1024], int lines) {
    must(write(c->fd, command, (size_t)len) == len, "write");
    int have = 0, found = 0;
    while (found < lines) {
        ssize_t more = read(c->fd, answer + have, (size_t)(1023 - have));
        must(more > 0, "read");
        for (ssize_t i = have; i < have + more; i++) found += answer[i] == '\n';
        have += (int)more;
    }
    answer[have] = 0;
}
static void put(caller *c, const pair *pairs, int count) {
    char command[4096], answer[1024];
    int len = count > 1 ? sprintf(command, "*1\r\n$5\r\nMULTI\r\n") : 0;
    for (const pair *p = pairs; p < pairs + count; p++) {
        char k[32], v[32];
        int kn = sprintf(k, "%llu", (unsigned long long)p->key), vn = sprintf(v, "%llu", (unsigned long long)p->value);
        len += sprintf(command + len, "*3\r\n$3\r\nSET\r\n$%d\r\n%s\r\n$%d\r\n%s\r\n", kn, k, vn, v);
    }
    if (count > 1) len += sprintf(command + len, "*1\r\n$4\r\nEXEC\r\n");
    ask(c, command, len, answer, count > 1 ? 2 * count + 2 : 1);
    must(!strchr(answer, '-'), answer);
}
static uint64_t get(caller *c, uint64_t key) {
    char k[32], command[256], answer[1024];
    int kn = sprintf(k, "%llu", (unsigned long long)key);
    int len = sprintf(command, "*2\r\n$3\r\nGET\r\n$%d\r\n%s\r\n", kn, k);
    ask(c, command, len, answer, 2);
    return strtoull(strchr(answer, '\n') + 1, NULL, 10);
}
#endif

static pthread_barrier_t ready;
static const char *place;
static int puts_values, each = 1; /* how many updates a transaction has */
static long times;
static uint64_t base; /* values are above it, so that none is put where it stands already */

static void *work(void *number) {
    caller c;
    uint64_t at = 7919 * (uint64_t)(uintptr_t)number, wrong = 0;
    open_caller(&c, place);
    pthread_barrier_wait(&ready);
    for (long i = 0; i < times; i += each) {
        pair pairs[GROUP];
        for (int j = 0; j < each; j++) {
            at = (at + 7) % KEYS;
            pairs[j] = (pair){at, base + (uint64_t)(i + j)};
        }
        if (puts_values)
            put(&c, pairs, each);
        else
            wrong += get(&c, at) == 0;
    }
    must(!wrong, "a value that nobody gave");
    return NULL;
}

static void fill(void) {
    caller c;
    open_caller(&c, place);
    for (uint64_t key = 0; key < KEYS; key++) put(&c, &(pair){key, 1}, 1);
    for (uint64_t key = 0; key < KEYS; key++) must(get(&c, key) == 1, "a value that nobody gave");
}

int main(int argc, char **argv) {
    must(argc == 5, "usage: peer PLACE fill|put|group|get CALLERS TIMES");
    pthread_t threads[MOST];
    struct timespec from, to;
    int callers = atoi(argv[3]);
    place = argv[1];
    if (!strcmp(argv[2], "group")) each = GROUP;
    puts_values = each > 1 || !strcmp(argv[2], "put");
    times = atol(argv[4]);
    must(times % each == 0, "the updates of groups must be a multiple of 16");
    must(callers > 0 && callers <= MOST, "too many callers");
    alarm(100);
    clock_gettime(CLOCK_REALTIME, &from);
    base = (uint64_t)from.tv_sec * 1000000;
    open_store(place);
    if (!strcmp(argv[2], "fill")) {
        fill();
        return 0;
    }
    pthread_barrier_init(&ready, NULL, (unsigned)callers + 1);
    for (int i = 0; i < callers; i++) must(!pthread_create(&threads[i], NULL, work, (void *)(uintptr_t)(i + 1)), "thread");
    pthread_barrier_wait(&ready);
    clock_gettime(CLOCK_MONOTONIC, &from);
    for (int i = 0; i < callers; i++) pthread_join(threads[i], NULL);
    clock_gettime(CLOCK_MONOTONIC, &to);
    printf("%.6f\n", (double)(to.tv_sec - from.tv_sec) + (double)(to.tv_nsec - from.tv_nsec) / 1e9);
    return 0;
}
