/* Makes the transactions that the program makes for the messages of bench/sql, with the same cells, by the system's SQLite:
   sql FOLDER COUNT. Each message is put into the post; then each is committed with its row, its record and the count,
   marked as sent, and taken out of the post. */

#include <sqlite3.h>
#include <stdint.h>
#include <stdio.h>
#include <stdlib.h>
#include <string.h>

enum { ACCOUNTS = 1000, COUNTS = 1, ENTRIES = 2, ROWS = 3, RECORDS = 4 };

struct store {
    sqlite3 *db;
    sqlite3_stmt *begin, *put, *erase, *commit;
};

struct bytes {
    unsigned char at[1024];
    int len;
};

static void need(int holds, sqlite3 *db) {
    if (!holds) {
        fprintf(stderr, "sql: %s\n", sqlite3_errmsg(db));
        exit(1);
    }
}

static sqlite3_stmt *prepared(sqlite3 *db, const char *text) {
    sqlite3_stmt *made;
    need(sqlite3_prepare_v2(db, text, -1, &made, NULL) == SQLITE_OK, db);
    return made;
}

/* All cells of the store are read, as at an opening. */
static void scan(sqlite3 *db) {
    sqlite3_stmt *each = prepared(db, "SELECT slot, held FROM cells WHERE space = ?1 ORDER BY slot");
    for (int space = 1; space <= 4; space++) {
        sqlite3_bind_int(each, 1, space);
        while (sqlite3_step(each) == SQLITE_ROW) {
        }
        sqlite3_reset(each);
    }
    sqlite3_finalize(each);
}

static struct store opened(const char *folder, const char *name) {
    char path[4096];
    struct store s;
    snprintf(path, sizeof path, "%s/%s", folder, name);
    need(sqlite3_open(path, &s.db) == SQLITE_OK, s.db);
    need(sqlite3_exec(s.db, "PRAGMA journal_mode = WAL; PRAGMA synchronous = FULL", NULL, NULL, NULL) == SQLITE_OK, s.db);
    need(sqlite3_exec(s.db,
                      "CREATE TABLE IF NOT EXISTS cells(space INTEGER NOT NULL, slot BLOB NOT NULL, held BLOB NOT NULL, "
                      "PRIMARY KEY(space, slot)) STRICT",
                      NULL, NULL, NULL) == SQLITE_OK,
         s.db);
    s.begin = prepared(s.db, "BEGIN");
    s.put = prepared(s.db, "INSERT INTO cells(space, slot, held) VALUES(?1, ?2, ?3) "
                           "ON CONFLICT(space, slot) DO UPDATE SET held = excluded.held");
    s.erase = prepared(s.db, "DELETE FROM cells WHERE space = ?1 AND slot = ?2");
    s.commit = prepared(s.db, "COMMIT");
    scan(s.db);
    return s;
}

static void closed(struct store *s) {
    sqlite3_finalize(s->begin);
    sqlite3_finalize(s->put);
    sqlite3_finalize(s->erase);
    sqlite3_finalize(s->commit);
    need(sqlite3_close(s->db) == SQLITE_OK, s->db);
}

static void run(struct store *s, sqlite3_stmt *statement) {
    need(sqlite3_step(statement) == SQLITE_DONE, s->db);
    sqlite3_reset(statement);
}

static void put(struct store *s, int space, const void *key, int key_len, const struct bytes *held) {
    sqlite3_bind_int(s->put, 1, space);
    sqlite3_bind_blob(s->put, 2, key, key_len, SQLITE_STATIC);
    sqlite3_bind_blob(s->put, 3, held->at, held->len, SQLITE_STATIC);
    run(s, s->put);
}

static void erase(struct store *s, int space, const void *key, int key_len) {
    sqlite3_bind_int(s->erase, 1, space);
    sqlite3_bind_blob(s->erase, 2, key, key_len, SQLITE_STATIC);
    run(s, s->erase);
}

static void add_byte(struct bytes *b, unsigned byte) {
    b->at[b->len++] = (unsigned char)byte;
}

static void add_number(struct bytes *b, uint64_t number, int width) {
    for (int shift = 8 * (width - 1); shift >= 0; shift -= 8)
        add_byte(b, (unsigned)(number >> shift) & 255);
}

static void add_text(struct bytes *b, const char *text) {
    size_t len = strlen(text);
    add_number(b, len, 4);
    memcpy(b->at + b->len, text, len);
    b->len += (int)len;
}

/* The cells begin with their format. */
static struct bytes cell(void) {
    struct bytes b = {.len = 0};
    add_byte(&b, 1);
    return b;
}

static struct bytes count_of(uint64_t n) {
    struct bytes b = cell();
    add_number(&b, n, 8);
    return b;
}

static struct bytes entry_of(const char *id, const char *account) {
    char body[128];
    struct bytes b = cell();
    snprintf(body, sizeof body, "{\"account\":\"%s\",\"amount\":1}", account);
    add_text(&b, "Sales");
    add_byte(&b, 0);
    add_number(&b, 2, 4);
    add_text(&b, "NServiceBus.EnclosedMessageTypes");
    add_text(&b, "Credit");
    add_text(&b, "NServiceBus.MessageId");
    add_text(&b, id);
    add_text(&b, body);
    return b;
}

static struct bytes row_of(uint64_t version, uint64_t value) {
    struct bytes b = cell();
    add_number(&b, version, 8);
    add_number(&b, value, 8);
    return b;
}

static struct bytes record_of(uint64_t n, int sent) {
    struct bytes b = cell();
    add_number(&b, n, 8);
    add_number(&b, 0, 8);
    add_byte(&b, (unsigned)sent);
    add_number(&b, 0, 4);
    return b;
}

static void load(struct store *post, uint64_t i) {
    char id[32], account[32];
    struct bytes number = {.len = 0};
    snprintf(id, sizeof id, "c%llu", (unsigned long long)i);
    snprintf(account, sizeof account, "a%llu", (unsigned long long)(i % ACCOUNTS));
    add_number(&number, i, 8);
    struct bytes entry = entry_of(id, account), next = count_of(i + 1);
    run(post, post->begin);
    put(post, ENTRIES, number.at, number.len, &entry);
    put(post, COUNTS, "", 0, &next);
    run(post, post->commit);
}

static void handle(struct store *base, uint64_t i, uint64_t value) {
    char id[32], account[32];
    snprintf(id, sizeof id, "c%llu", (unsigned long long)i);
    snprintf(account, sizeof account, "a%llu", (unsigned long long)(i % ACCOUNTS));
    struct bytes row = row_of(i, value), record = record_of(i, 0), count = count_of(i);
    run(base, base->begin);
    put(base, ROWS, account, (int)strlen(account), &row);
    put(base, RECORDS, id, (int)strlen(id), &record);
    put(base, COUNTS, "", 0, &count);
    run(base, base->commit);
}

static void mark(struct store *base, uint64_t i) {
    char id[32];
    snprintf(id, sizeof id, "c%llu", (unsigned long long)i);
    struct bytes record = record_of(i, 1);
    run(base, base->begin);
    put(base, RECORDS, id, (int)strlen(id), &record);
    run(base, base->commit);
}

static void take_out(struct store *post, uint64_t i) {
    struct bytes number = {.len = 0};
    add_number(&number, i, 8);
    run(post, post->begin);
    erase(post, ENTRIES, number.at, number.len);
    run(post, post->commit);
}

int main(int argc, char **argv) {
    if (argc != 3) {
        fprintf(stderr, "usage: sql FOLDER COUNT\n");
        return 2;
    }
    uint64_t count = strtoull(argv[2], NULL, 10);
    uint64_t values[ACCOUNTS] = {0};
    struct store post = opened(argv[1], "post.db"), base = opened(argv[1], "base.db");
    for (uint64_t i = 1; i <= count; i++)
        load(&post, i);
    for (uint64_t i = 1; i <= count; i++) {
        handle(&base, i, ++values[i % ACCOUNTS]);
        mark(&base, i);
        take_out(&post, i);
    }
    closed(&base);
    closed(&post);
    return 0;
}
