// A bare socket server for comparison: it takes one connection after another on 127.0.0.1, reads to the end of the first line, writes the bytes of the file that
// stands behind that selector in its words, and closes.
//
//   bare PORT SELECTOR FILE [SELECTOR FILE]..
#define _GNU_SOURCE
#include <netinet/tcp.h>
#include <signal.h>
#include <string.h>
#include <unistd.h>

#include "listening.h"

enum { MOST_REPLIES = 16, MOST_REPLY = 1 << 20, MOST_LINE = 1024 };

struct reply {
    const char *selector;
    char *bytes;
    size_t length;
};

static struct reply replies[MOST_REPLIES];
static int count;

static void take_reply(const char *selector, const char *file) {
    struct reply *it = &replies[count++];
    FILE *opened = fopen(file, "rb");
    if (!opened) give_up(file);
    it->selector = selector;
    it->bytes = malloc(MOST_REPLY);
    if (!it->bytes) give_up("malloc");
    it->length = fread(it->bytes, 1, MOST_REPLY, opened);
    fclose(opened);
}

// The reply to the line that comes, or none.
static const struct reply *heard(int client) {
    char line[MOST_LINE];
    size_t got = 0;
    while (got < sizeof line) {
        ssize_t more = read(client, line + got, sizeof line - got);
        if (more <= 0) return NULL;
        got += more;
        char *end = memchr(line, '\n', got);
        if (!end) continue;
        size_t length = end - line;
        if (length && line[length - 1] == '\r') length--;
        for (int i = 0; i < count; i++)
            if (strlen(replies[i].selector) == length && !memcmp(replies[i].selector, line, length)) return &replies[i];
        return NULL;
    }
    return NULL;
}

static void serve(int client) {
    const struct reply *it = heard(client);
    for (size_t sent = 0; it && sent < it->length;) {
        ssize_t more = write(client, it->bytes + sent, it->length - sent);
        if (more <= 0) break;
        sent += more;
    }
    shutdown(client, SHUT_RDWR);
    close(client);
}

int main(int words, char **word) {
    if (words < 4 || words % 2 || words > 2 + 2 * MOST_REPLIES) {
        fprintf(stderr, "bare PORT SELECTOR FILE [SELECTOR FILE]..\n");
        return 2;
    }
    signal(SIGPIPE, SIG_IGN);
    for (int i = 2; i < words; i += 2) take_reply(word[i], word[i + 1]);
    int listener = listening_on(atoi(word[1]));
    for (;;) {
        int client = accept(listener, NULL, NULL);
        if (client < 0) continue;
        setsockopt(client, IPPROTO_TCP, TCP_NODELAY, &(int){1}, sizeof(int));
        serve(client);
    }
}
