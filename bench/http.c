/* A bare loop: accepts, reads a head, writes a fixed reply, closes. Words: how many connections. */
#include <arpa/inet.h>
#include <stdio.h>
#include <stdlib.h>
#include <string.h>
#include <sys/socket.h>
#include <unistd.h>

static const char reply[] = "HTTP/1.1 200 OK\r\nContent-Type: application/json\r\nContent-Length: 13\r\n"
                            "Connection: close\r\n\r\n{\"items\":[]}\n";

static void serve_one(int peer) {
    char head[8193];
    size_t taken = 0;
    while (taken < 8192) {
        ssize_t got = read(peer, head + taken, 8192 - taken);
        if (got <= 0) break;
        taken += (size_t)got;
        head[taken] = 0;
        if (strstr(head, "\r\n\r\n")) {
            if (write(peer, reply, sizeof reply - 1) < 0) perror("write");
            break;
        }
    }
    close(peer);
}

int main(int count, char **words) {
    struct sockaddr_in place = {.sin_family = AF_INET, .sin_addr.s_addr = htonl(INADDR_LOOPBACK)};
    socklen_t size = sizeof place;
    int heard = socket(AF_INET, SOCK_STREAM, 0);
    if (count < 2 || heard < 0 || bind(heard, (void *)&place, size) || listen(heard, 128)) return 1;
    if (getsockname(heard, (void *)&place, &size)) return 1;
    printf("bare: listening on 127.0.0.1:%d\n", ntohs(place.sin_port));
    fflush(stdout);
    for (long left = atol(words[1]); left > 0; left--) {
        int peer = accept(heard, NULL, NULL);
        if (peer >= 0) serve_one(peer);
    }
    return 0;
}
