/* What tools/bench-store compares the program with: the same tables, written and read by the system's sqlite3 with the same settings.
 *
 *   bench-store STORE put     reads PUTs from standard input, stores each body and two rows by one transaction, and answers it
 *   bench-store STORE open    opens the store and reads all rows in order
 */
#include <sqlite3.h>
#include <stdio.h>
#include <stdlib.h>
#include <string.h>

static sqlite3 *db;

static void fail(const char *what) {
  fprintf(stderr, "bench-store: %s: %s\n", what, sqlite3_errmsg(db));
  exit(1);
}

static void run(const char *sql) {
  if (sqlite3_exec(db, sql, NULL, NULL, NULL) != SQLITE_OK) fail(sql);
}

static sqlite3_stmt *prepare(const char *sql) {
  sqlite3_stmt *statement;
  if (sqlite3_prepare_v2(db, sql, -1, &statement, NULL) != SQLITE_OK) fail(sql);
  return statement;
}

static void step(sqlite3_stmt *statement) {
  if (sqlite3_step(statement) != SQLITE_DONE) fail("step");
  sqlite3_reset(statement);
}

static void open_store(const char *path) {
  if (sqlite3_open(path, &db) != SQLITE_OK) fail(path);
  run("PRAGMA locking_mode = EXCLUSIVE; PRAGMA journal_mode = WAL; PRAGMA synchronous = FULL;");
  run("CREATE TABLE IF NOT EXISTS rows (kind INTEGER NOT NULL, key BLOB NOT NULL, body BLOB NOT NULL,"
      " PRIMARY KEY (kind, key)) STRICT;"
      "CREATE TABLE IF NOT EXISTS pieces (id INTEGER PRIMARY KEY, body BLOB NOT NULL) STRICT;");
}

static void put_row(sqlite3_stmt *statement, int kind, const void *key, int key_size, const void *body, int body_size) {
  sqlite3_bind_int(statement, 1, kind);
  sqlite3_bind_blob(statement, 2, key, key_size, SQLITE_STATIC);
  sqlite3_bind_blob(statement, 3, body, body_size, SQLITE_STATIC);
  step(statement);
}

/* Reads a head, and answers how long the body behind it is, or -1 at the end. */
static long read_head(void) {
  char line[8192];
  long size = -1;
  while (fgets(line, sizeof line, stdin) != NULL && strcmp(line, "\r\n") != 0)
    if (strncmp(line, "Content-Length: ", 16) == 0) size = atol(line + 16);
  return size;
}

static void put(void) {
  sqlite3_stmt *piece = prepare("INSERT INTO pieces (id, body) VALUES (?1, ?2) ON CONFLICT (id) DO UPDATE SET body = excluded.body");
  sqlite3_stmt *row = prepare("INSERT INTO rows (kind, key, body) VALUES (?1, ?2, ?3)"
                              " ON CONFLICT (kind, key) DO UPDATE SET body = excluded.body");
  static char meta[41], node[100];
  char *body = malloc(16777216);
  long size;
  for (int id = 1; (size = read_head()) >= 0; id++) {
    unsigned char key[8] = {0, 0, 0, 0, id >> 24, id >> 16, id >> 8, id};
    if (body == NULL || size > 16777216 || fread(body, 1, size, stdin) != (size_t)size) exit(1);
    meta[0] = node[0] = (char)id;
    run("BEGIN");
    put_row(row, 1, "", 0, meta, sizeof meta);
    put_row(row, 6, key, sizeof key, node, sizeof node);
    sqlite3_bind_int(piece, 1, id);
    sqlite3_bind_blob(piece, 2, body, (int)size, SQLITE_STATIC);
    step(piece);
    run("COMMIT");
    fputs("HTTP/1.1 201 Created\r\nContent-Length: 0\r\n\r\n", stdout);
    fflush(stdout);
  }
  sqlite3_finalize(piece);
  sqlite3_finalize(row);
  free(body);
}

static void read_rows(void) {
  sqlite3_stmt *rows = prepare("SELECT kind, key, body FROM rows ORDER BY kind, key");
  long bytes = 0;
  while (sqlite3_step(rows) == SQLITE_ROW) bytes += sqlite3_column_bytes(rows, 1) + sqlite3_column_bytes(rows, 2);
  sqlite3_finalize(rows);
  printf("%ld\n", bytes);
}

int main(int count, char **words) {
  if (count != 3) return 2;
  open_store(words[1]);
  if (strcmp(words[2], "put") == 0) put();
  else read_rows();
  if (sqlite3_close(db) != SQLITE_OK) fail("close");
  return 0;
}
