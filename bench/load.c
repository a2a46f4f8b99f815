// Clients for a measurement: asks a Gopher server on 127.0.0.1 for the same thing again and again, by so many connections at a time, and prints what came.
//
//   load get PORT CONNECTIONS SECONDS SELECTOR     each reply has to have as many bytes as the first
//   load post PORT CONNECTIONS SECONDS FORM        each post has a title of its own, and has to be acknowledged
//   load post PORT CONNECTIONS SECONDS FORM WORDS  each has a second answer too, of so many different words out of 2,000
//
// It prints one line: requests N seconds S faults F bytes B median M p99 P. B are the bytes of the first reply, M and P microseconds from before the connection
// until its end. What is under way when the time is over is not counted; one request is waited for.
#define _GNU_SOURCE
#include <arpa/inet.h>
#include <errno.h>
#include <netinet/in.h>
#include <netinet/tcp.h>
#include <stdbool.h>
#include <stdio.h>
#include <stdlib.h>
#include <string.h>
#include <sys/epoll.h>
#include <sys/socket.h>
#include <time.h>
#include <unistd.h>

enum { MOST_CONNECTIONS = 1024, MOST_SAMPLES = 1 << 20, GRACE = 60, MOST_REQUEST = 1024, MOST_WORDS = 64, VOCABULARY = 2000, WORD_STEP = 67 };

static const char ACKNOWLEDGED[] = "+-1\r\n0";

struct client {
    int socket;
    double began;
    size_t got;
    char front[sizeof ACKNOWLEDGED - 1];
};

static struct client clients[MOST_CONNECTIONS];
static float samples[MOST_SAMPLES];
static size_t requests, faults, first_bytes;
static bool is_post;
static const char *asked;
static struct sockaddr_in server;
static int waiting, second_words;

static double now(void) {
    struct timespec it;
    clock_gettime(CLOCK_MONOTONIC, &it);
    return it.tv_sec + it.tv_nsec * 1e-9;
}

static void give_up(const char *what) {
    perror(what);
    exit(1);
}

// Writes the second answer of a post, and gives its length. The words are other ones in each post, and lie far apart.
static int write_words(char *room, size_t size) {
    static unsigned seed = 1;
    int length = 0;
    seed = seed * 1103515245 + 12345;
    unsigned first = seed >> 16;
    for (int i = 0; i < second_words; i++) length += snprintf(room + length, size - length, "word%u%s", (first + i * WORD_STEP) % VOCABULARY, i + 1 < second_words ? " " : "\r\n");
    return length;
}

// Writes the next request into the room, and gives its length.
static int next_request(char *room, size_t size) {
    static size_t posts;
    if (!is_post) return snprintf(room, size, "%s\r\n", asked);
    int length = snprintf(room, size, "%s\t+\t1\r\n+-1\r\nb%d-%zu\r\n", asked, getpid(), ++posts);
    length += write_words(room + length, size - length);
    return length + snprintf(room + length, size - length, ".\r\n");
}

// Connects and sends a request. The reply is waited for by epoll.
static void ask(struct client *it) {
    char request[MOST_REQUEST];
    struct timeval patience = {.tv_sec = 5};
    struct epoll_event event = {.events = EPOLLIN, .data.ptr = it};
    it->began = now();
    it->got = 0;
    it->socket = socket(AF_INET, SOCK_STREAM, 0);
    if (it->socket < 0) give_up("socket");
    setsockopt(it->socket, SOL_SOCKET, SO_SNDTIMEO, &patience, sizeof patience);
    setsockopt(it->socket, IPPROTO_TCP, TCP_NODELAY, &(int){1}, sizeof(int));
    if (connect(it->socket, (struct sockaddr *)&server, sizeof server)) give_up("connect");
    int length = next_request(request, sizeof request);
    if (send(it->socket, request, length, MSG_NOSIGNAL) != length) give_up("send");
    if (epoll_ctl(waiting, EPOLL_CTL_ADD, it->socket, &event)) give_up("epoll_ctl");
}

static bool is_right(const struct client *it) {
    if (is_post) return it->got > sizeof it->front && !memcmp(it->front, ACKNOWLEDGED, sizeof it->front);
    return it->got > 0 && it->got == first_bytes;
}

static void count(const struct client *it) {
    if (!first_bytes) first_bytes = it->got;
    if (!is_right(it)) faults++;
    if (requests < MOST_SAMPLES) samples[requests] = (now() - it->began) * 1e6;
    requests++;
}

// Takes what came. Returns whether the reply has ended.
static bool hear(struct client *it) {
    static char bytes[1 << 18];
    ssize_t count = recv(it->socket, bytes, sizeof bytes, MSG_DONTWAIT);
    if (count < 0 && (errno == EAGAIN || errno == EINTR)) return false;
    if (count <= 0) return true;
    for (ssize_t i = 0; i < count && it->got + i < sizeof it->front; i++) it->front[it->got + i] = bytes[i];
    it->got += count;
    return false;
}

static int by_size(const void *a, const void *b) {
    float x = *(const float *)a, y = *(const float *)b;
    return (x > y) - (x < y);
}

static void report(double seconds) {
    size_t kept = requests < MOST_SAMPLES ? requests : MOST_SAMPLES;
    qsort(samples, kept, sizeof *samples, by_size);
    printf("requests %zu seconds %.3f faults %zu bytes %zu median %.0f p99 %.0f\n", requests, seconds, faults, first_bytes, kept ? samples[kept / 2] : 0, kept ? samples[kept * 99 / 100] : 0);
}

static void run(int connections, double seconds) {
    struct epoll_event events[64];
    double began = now(), end = began + seconds;
    for (int i = 0; i < connections; i++) ask(&clients[i]);
    while (now() < end || !requests) {
        int ready = epoll_wait(waiting, events, 64, 100);
        for (int i = 0; i < ready; i++) {
            struct client *it = events[i].data.ptr;
            if (!hear(it)) continue;
            close(it->socket);
            count(it);
            ask(it);
        }
    }
    report(now() - began);
}

int main(int words, char **word) {
    if (words != 6 && words != 7) {
        fprintf(stderr, "load get|post PORT CONNECTIONS SECONDS SELECTOR [WORDS]\n");
        return 2;
    }
    second_words = words == 7 ? atoi(word[6]) : 0;
    int connections = atoi(word[3]);
    double seconds = atof(word[4]);
    if (connections < 1 || connections > MOST_CONNECTIONS || second_words < 0 || second_words > MOST_WORDS) return 2;
    is_post = !strcmp(word[1], "post");
    asked = word[5];
    server = (struct sockaddr_in){.sin_family = AF_INET, .sin_port = htons(atoi(word[2])), .sin_addr.s_addr = htonl(INADDR_LOOPBACK)};
    waiting = epoll_create1(0);
    if (waiting < 0) give_up("epoll_create1");
    alarm((unsigned)seconds + GRACE);
    run(connections, seconds);
    return 0;
}
