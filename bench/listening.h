// What the servers of this folder share.
#pragma once
#include <arpa/inet.h>
#include <netinet/in.h>
#include <stdio.h>
#include <stdlib.h>
#include <sys/socket.h>

static inline void give_up(const char *what) {
    perror(what);
    exit(1);
}

// A socket that listens on a port of 127.0.0.1.
static inline int listening_on(int port) {
    struct sockaddr_in address = {.sin_family = AF_INET, .sin_port = htons(port), .sin_addr.s_addr = htonl(INADDR_LOOPBACK)};
    int it = socket(AF_INET, SOCK_STREAM | SOCK_CLOEXEC, 0);
    setsockopt(it, SOL_SOCKET, SO_REUSEADDR, &(int){1}, sizeof(int));
    if (bind(it, (struct sockaddr *)&address, sizeof address)) give_up("bind");
    if (listen(it, 128)) give_up("listen");
    return it;
}
