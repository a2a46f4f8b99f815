// SQLite behind the loop of a bare socket server (bare.c), for comparison: it takes one connection after another on 127.0.0.1, reads a post as load.c sends it, inserts one row of its text in a
// transaction of its own, which is synced, writes the line that our server answers, and closes.
//
//   rows PORT FILE     FILE is a database that has the table of posts already
#define _GNU_SOURCE
#include <netinet/tcp.h>
#include <signal.h>
#include <sqlite3.h>
#include <stdbool.h>
#include <string.h>
#include <time.h>
#include <unistd.h>

#include "listening.h"

enum { MOST_REQUEST = 4096 };

static const char DATA[] = "+-1\r\n", END[] = "\r\n.\r\n", PERIOD[] = ".\r\n", LINE_END[] = "\r\n";
static const char *const PROMPTS[] = {"Name", "Text"};
static sqlite3 *base;
static sqlite3_stmt *insert;

static void refused(const char *what) {
    fprintf(stderr, "rows: %s: %s\n", what, sqlite3_errmsg(base));
    exit(1);
}

static void open_base(const char *file) {
    if (sqlite3_open(file, &base)) refused("open");
    if (sqlite3_exec(base, "PRAGMA journal_mode=WAL; PRAGMA synchronous=FULL", NULL, NULL, NULL)) refused("pragma");
    if (sqlite3_prepare_v2(base, "INSERT INTO post (stamp, title, text) VALUES (?, ?, ?)", -1, &insert, NULL)) refused("prepare");
}

// Inserts a row, and gives its number.
static long long inserted(const char *title, size_t length, const char *text) {
    sqlite3_bind_int64(insert, 1, time(NULL));
    sqlite3_bind_text(insert, 2, title, length, SQLITE_STATIC);
    sqlite3_bind_text(insert, 3, text, -1, SQLITE_STATIC);
    if (sqlite3_step(insert) != SQLITE_DONE) refused("insert");
    sqlite3_reset(insert);
    return sqlite3_last_insert_rowid(base);
}

// Reads a request whose data end with a line of one period, as a text. Returns whether it came whole.
static bool heard(int client, char *request) {
    size_t got = 0;
    while (got < MOST_REQUEST) {
        ssize_t more = read(client, request + got, MOST_REQUEST - got);
        if (more <= 0) return false;
        got += more;
        request[got] = 0;
        size_t end = strlen(END);
        if (got >= end && !memcmp(request + got - end, END, end)) return true;
    }
    return false;
}

// The text of a post: a line for each answer, behind its prompt.
static void write_text(char *text, size_t size, const char *answer) {
    size_t length = 0;
    for (size_t at = 0; at < sizeof PROMPTS / sizeof *PROMPTS && strcmp(answer, PERIOD); at++) {
        const char *end = strstr(answer, LINE_END);
        length += snprintf(text + length, size - length, "%s: %.*s\n", PROMPTS[at], (int)(end - answer), answer);
        answer = end + strlen(LINE_END);
    }
}

static void answer(int client, int port, const char *request) {
    char text[2 * MOST_REQUEST], reply[MOST_REQUEST];
    const char *title = strstr(request, DATA);
    if (!title) return;
    title += strlen(DATA);
    int length = strstr(title, LINE_END) - title;
    write_text(text, sizeof text, title);
    long long number = inserted(title, length, text);
    int written = snprintf(reply, sizeof reply, "+-1\r\n0%.*s\tpost//book/%lld\tlocalhost\t%d\t+\r\n.\r\n", length, title, number, port);
    if (write(client, reply, written) != written) return;
}

int main(int words, char **word) {
    static char request[MOST_REQUEST + 1];
    if (words != 3) {
        fprintf(stderr, "rows PORT FILE\n");
        return 2;
    }
    signal(SIGPIPE, SIG_IGN);
    open_base(word[2]);
    int port = atoi(word[1]), listener = listening_on(port);
    for (;;) {
        int client = accept(listener, NULL, NULL);
        if (client < 0) continue;
        setsockopt(client, IPPROTO_TCP, TCP_NODELAY, &(int){1}, sizeof(int));
        if (heard(client, request)) answer(client, port, request);
        shutdown(client, SHUT_RDWR);
        close(client);
    }
}
