// An acceptor as inetd is: each connection on 127.0.0.1 becomes standard input and output of a process of its own.
//
//   inetd PORT PROGRAM [WORD]..
#define _GNU_SOURCE
#include <signal.h>
#include <unistd.h>

#include "listening.h"

int main(int words, char **word) {
    if (words < 3) {
        fprintf(stderr, "inetd PORT PROGRAM [WORD]..\n");
        return 2;
    }
    signal(SIGCHLD, SIG_IGN);
    int listener = listening_on(atoi(word[1]));
    for (;;) {
        int client = accept4(listener, NULL, NULL, SOCK_CLOEXEC);
        if (client < 0) continue;
        pid_t child = vfork();
        if (child == 0) {
            signal(SIGCHLD, SIG_DFL);
            dup2(client, 0);
            dup2(client, 1);
            execv(word[2], word + 2);
            _exit(127);
        }
        close(client);
    }
}
