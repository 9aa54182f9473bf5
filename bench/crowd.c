/* A crowd of clients at a port of the loopback, in one process. The standard input holds their requests, each after a
   line with its client's number and its length. All clients begin within SPREAD milliseconds, from so many ADDRESSES in
   turn (127.1.x.y), and ask their requests one after another: on one connection as long as it is kept (KEEP 1), or on a
   connection each (KEEP 0). A try without a whole reply is lost; one that is answered 408, 429, 502, 503 or 504 is
   refused. Either is made again after a pause. After LIMIT seconds all is over.

   It writes the nanoseconds that all took, and then a line for each request: microseconds from its first try to its
   whole reply, status (0: never answered), tries lost, tries refused, a number made of the body, and the microseconds
   since 1970 at which the last byte of its last try was sent. */
#define _GNU_SOURCE
#include <arpa/inet.h>
#include <errno.h>
#include <netinet/in.h>
#include <netinet/tcp.h>
#include <stdint.h>
#include <stdio.h>
#include <stdlib.h>
#include <string.h>
#include <sys/epoll.h>
#include <sys/socket.h>
#include <time.h>
#include <unistd.h>

enum { HEAD = 4096, EVENTS = 512, CHUNK = 1 << 16 };
enum state { RESTING, ASKING, DONE };

static const long MS = 1000000, PATIENCE = 60000 * MS, LEAST_PAUSE = 50 * MS, MOST_PAUSE = 1000 * MS;

struct asked {
    char *bytes;
    size_t length, next;
    long begun, took, sent;
    int status;
    unsigned lost, refused, tries, hash;
};

struct client {
    int conn;
    enum state state;
    long wake; /* when it begins, or gives a try up */
    size_t first, last, now, sent, got, left;
    int status, closes;
    unsigned hash;
    char head[HEAD];
};

static struct asked *asked;
static struct client *clients;
static size_t count, crowd, busy, addresses;
static int port, keep, events;

static long told_by(clockid_t clock) {
    struct timespec at;
    clock_gettime(clock, &at);
    return at.tv_sec * 1000000000L + at.tv_nsec;
}

static long now(void) { return told_by(CLOCK_MONOTONIC); }

static void fail(const char *what) {
    perror(what);
    exit(1);
}

static void *room(void *old, size_t size) {
    void *made = realloc(old, size);
    if (!made)
        fail("no memory");
    return made;
}

static void add(size_t who, size_t length) {
    if (who >= crowd) {
        clients = room(clients, (who + 1) * sizeof *clients);
        for (; crowd <= who; crowd++)
            clients[crowd] = (struct client){.conn = -1, .state = DONE, .first = SIZE_MAX};
    }
    if (count % 1024 == 0)
        asked = room(asked, (count + 1024) * sizeof *asked);
    asked[count] = (struct asked){.bytes = room(NULL, length), .length = length, .next = SIZE_MAX};
    if (fread(asked[count].bytes, 1, length, stdin) != length)
        fail("no whole request");
    if (clients[who].first == SIZE_MAX)
        clients[who].first = count;
    else
        asked[clients[who].last].next = count;
    clients[who].last = count++;
}

static void hang_up(struct client *it) {
    if (it->conn >= 0)
        close(it->conn);
    it->conn = -1;
}

static void open_line(struct client *it) {
    unsigned who = (it - clients) % addresses;
    int one = 1;
    in_addr_t own = htonl(0x7f010000 + who / 250 * 256 + who % 250 + 1);
    struct sockaddr_in from = {.sin_family = AF_INET, .sin_addr.s_addr = own};
    struct sockaddr_in to = {.sin_family = AF_INET, .sin_port = htons(port), .sin_addr.s_addr = htonl(INADDR_LOOPBACK)};
    struct epoll_event event = {.events = EPOLLIN | EPOLLOUT | EPOLLRDHUP | EPOLLET, .data.ptr = it};
    it->conn = socket(AF_INET, SOCK_STREAM | SOCK_NONBLOCK, 0);
    if (it->conn < 0)
        fail("no socket");
    setsockopt(it->conn, IPPROTO_TCP, TCP_NODELAY, &one, sizeof one);
    setsockopt(it->conn, IPPROTO_IP, IP_BIND_ADDRESS_NO_PORT, &one, sizeof one);
    if (bind(it->conn, (struct sockaddr *)&from, sizeof from) != 0)
        fail("no address");
    if (connect(it->conn, (struct sockaddr *)&to, sizeof to) != 0 && errno != EINPROGRESS) {
        hang_up(it);
        return;
    }
    epoll_ctl(events, EPOLL_CTL_ADD, it->conn, &event);
}

/* The request is made again after a pause. */
static void again(struct client *it, unsigned *counted) {
    struct asked *one = &asked[it->now];
    long pause = LEAST_PAUSE << (one->tries < 5 ? one->tries : 5);
    ++*counted;
    one->tries++;
    hang_up(it);
    it->state = RESTING;
    it->wake = now() + (pause < MOST_PAUSE ? pause : MOST_PAUSE);
}

static void answered(struct client *it) {
    struct asked *one = &asked[it->now];
    int status = it->status;
    if (status == 408 || status == 429 || (status >= 502 && status <= 504)) {
        again(it, &one->refused);
        return;
    }
    one->took = now() - one->begun;
    one->status = status;
    one->hash = it->hash;
    it->now = one->next;
    it->state = it->now == SIZE_MAX ? DONE : RESTING;
    it->wake = 0;
    busy -= it->state == DONE;
    if (!keep || it->closes || it->state == DONE)
        hang_up(it);
}

static void take(struct client *it, const char *bytes, size_t size) {
    while (size > 0 && it->status == 0) {
        it->head[it->got++] = *bytes++;
        it->head[it->got] = 0;
        size--;
        if (it->got >= 4 && memcmp(it->head + it->got - 4, "\r\n\r\n", 4) == 0) {
            char *length = strcasestr(it->head, "\r\nContent-Length:");
            it->status = atoi(it->head + strcspn(it->head, " "));
            it->left = length ? strtoul(length + 17, NULL, 10) : 0;
            it->closes = strcasestr(it->head, "\r\nConnection: close") != NULL || !length;
        } else if (it->got == HEAD - 1) {
            it->status = 1;
        }
    }
    for (; size > 0 && it->left > 0; size--, it->left--)
        it->hash = (it->hash ^ (unsigned char)*bytes++) * 16777619u;
}

/* Sends what is still to send, and takes what has come. */
static void go_on(struct client *it) {
    static char chunk[CHUNK];
    struct asked *one = &asked[it->now];
    while (it->state == ASKING && it->sent < one->length) {
        ssize_t size = send(it->conn, one->bytes + it->sent, one->length - it->sent, MSG_NOSIGNAL);
        if (size < 0)
            break; /* not yet; or no more, and there may be a reply all the same */
        it->sent += size;
        one->sent = told_by(CLOCK_REALTIME);
    }
    while (it->state == ASKING) {
        ssize_t size = recv(it->conn, chunk, CHUNK, 0);
        if (size < 0 && (errno == EAGAIN || errno == ENOTCONN))
            return;
        if (size <= 0) {
            again(it, &one->lost);
            return;
        }
        take(it, chunk, size);
        if (it->status != 0 && it->left == 0)
            answered(it);
    }
}

static void ask(struct client *it, long moment) {
    struct asked *one = &asked[it->now];
    it->state = ASKING;
    it->wake = moment + PATIENCE;
    it->sent = it->got = it->left = 0;
    it->status = it->closes = 0;
    it->hash = 2166136261u;
    one->begun = one->begun ? one->begun : moment;
    if (it->conn < 0)
        open_line(it);
    else
        go_on(it);
    if (it->conn < 0 && it->state == ASKING)
        again(it, &one->lost);
}

static void wake(long moment) {
    for (struct client *it = clients; it < clients + crowd; it++) {
        if (it->state == RESTING && it->wake <= moment)
            ask(it, moment);
        else if (it->state == ASKING && it->wake <= moment)
            again(it, &asked[it->now].lost);
    }
}

static long run(long spread, long limit) {
    struct epoll_event told[EVENTS];
    long begun = now(), next = 0, ended = begun;
    for (size_t who = 0; who < crowd; who++)
        if (clients[who].first != SIZE_MAX) {
            clients[who].state = RESTING;
            clients[who].now = clients[who].first;
            clients[who].wake = begun + spread / (long)crowd * (long)(who * 7919 % crowd);
            busy++;
        }
    while (busy > 0 && (ended = now()) < begun + limit) {
        if (ended >= next) {
            wake(ended);
            next = now() + MS;
        }
        int size = epoll_wait(events, told, EVENTS, 1);
        for (int k = 0; k < size; k++) {
            struct client *it = told[k].data.ptr;
            if (it->conn < 0)
                continue;
            if (it->state == ASKING)
                go_on(it);
            else if (told[k].events & (EPOLLRDHUP | EPOLLHUP | EPOLLERR))
                hang_up(it);
            if (it->state == RESTING && it->wake == 0)
                ask(it, now());
        }
    }
    return now() - begun;
}

int main(int words, char **word) {
    size_t who, length;
    if (words != 6)
        return 2;
    port = atoi(word[1]);
    keep = atoi(word[2]);
    addresses = atol(word[5]);
    events = epoll_create1(0);
    while (scanf("%zu %zu%*1[\n]", &who, &length) == 2)
        add(who, length);
    printf("%ld\n", run(atol(word[3]) * MS, atol(word[4]) * 1000 * MS));
    for (size_t k = 0; k < count; k++)
        printf("%ld %d %u %u %u %ld\n", asked[k].took / 1000, asked[k].status, asked[k].lost, asked[k].refused,
               asked[k].hash, asked[k].sent / 1000);
    return 0;
}
