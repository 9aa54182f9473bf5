/* Sends the requests that stand in the standard input, each after a line with its length, to a port of the loopback, one
   after another: up to MOST on a connection, each once the reply before it is whole. It writes the nanoseconds that all
   took. Each must be answered 200. */
#define _GNU_SOURCE
#include <arpa/inet.h>
#include <netinet/in.h>
#include <netinet/tcp.h>
#include <stdio.h>
#include <stdlib.h>
#include <string.h>
#include <sys/socket.h>
#include <time.h>
#include <unistd.h>

enum { MOST = 1000, ROOM = 1 << 22 };

static char request[ROOM], reply[ROOM];

static void fail(const char *what) {
    fprintf(stderr, "ask: %s: %.300s\n", what, reply);
    exit(1);
}

static int connect_to(int port) {
    struct sockaddr_in at = {.sin_family = AF_INET, .sin_port = htons(port), .sin_addr.s_addr = htonl(INADDR_LOOPBACK)};
    int one = 1, conn = socket(AF_INET, SOCK_STREAM, 0);
    if (conn < 0 || connect(conn, (struct sockaddr *)&at, sizeof at) != 0)
        fail("no connection");
    setsockopt(conn, IPPROTO_TCP, TCP_NODELAY, &one, sizeof one);
    return conn;
}

/* The length of the whole reply that begins here, or 0 where its head isn't whole. */
static size_t length_of(void) {
    char *end = strstr(reply, "\r\n\r\n"), *length = end ? strcasestr(reply, "\r\nContent-Length:") : NULL;
    if (end && (!length || length > end || strncmp(reply + strcspn(reply, " "), " 200 ", 5) != 0))
        fail("not answered 200");
    return end ? end + 4 - reply + strtoul(length + 17, NULL, 10) : 0;
}

static void ask(int conn, size_t length) {
    size_t got = 0, whole = 0;
    if (send(conn, request, length, MSG_NOSIGNAL) != (ssize_t)length)
        fail("not sent");
    while (whole == 0 || got < whole) {
        ssize_t more = recv(conn, reply + got, ROOM - 1 - got, 0);
        if (more <= 0)
            fail("no whole reply");
        got += more;
        reply[got] = 0;
        whole = whole ? whole : length_of();
    }
}

static long now(void) {
    struct timespec at;
    clock_gettime(CLOCK_MONOTONIC, &at);
    return at.tv_sec * 1000000000L + at.tv_nsec;
}

int main(int count, char **words) {
    long spent = 0;
    int conn = -1;
    size_t length;
    for (int asked = 0; count == 2 && scanf("%zu%*1[\n]", &length) == 1; asked++) {
        if (length > ROOM || fread(request, 1, length, stdin) != length)
            fail("no whole request");
        long begun = now();
        if (asked % MOST == 0) {
            close(conn);
            conn = connect_to(atoi(words[1]));
        }
        ask(conn, length);
        spent += now() - begun;
    }
    printf("%ld\n", spent);
    return 0;
}
