/* Entrants at a port of the loopback, each with requests that come due at their moments, in one process.

     olympiad PORT FIRST BEGIN LIMIT < all

   The input has the number of texts and that of requests on a line; each text after a line with its length and where
   the six digits of the entrant's key stand in it; and then twelve bytes for each request: whose it is, how many
   milliseconds after BEGIN (milliseconds since 1970) it comes due, and which text it is. Those of an entrant stand
   together, in the order in which they are made, each once the one before is answered. FIRST is the number of the first
   entrant, of whom each has an address of its own (127.1.x.y) and a connection that is kept.

   As the page does it, what has no reply of the hall is sent again after a pause, and what has none in ten seconds is
   given up, the next time in twenty, and then in forty. LIMIT seconds after BEGIN all is over. For each request it then
   writes twenty bytes: the microseconds until its whole reply and those that it began behind its moment, its status
   (1,000 and the code of a denial; 0: never answered), how many tries went before, and the microseconds since 1970 at
   which the last byte of its first try was sent. */
#define _GNU_SOURCE
#include <arpa/inet.h>
#include <errno.h>
#include <netinet/in.h>
#include <netinet/tcp.h>
#include <stdint.h>
#include <stdio.h>
#include <stdlib.h>
#include <string.h>
#include <sys/epoll.h>
#include <sys/socket.h>
#include <time.h>
#include <unistd.h>

enum { HEAD = 1024, EVENTS = 1024, CHUNK = 1 << 16, LONGEST = 8192 };
enum state { RESTING, ASKING, DONE };

static const long US = 1000, MS = 1000000, S = 1000000000;
static const long PAUSES[] = {500, 1000, 2000, 4000, 8000, 15000}, PATIENCE = 10, LONGEST_PATIENCE = 40;

struct text { char *bytes; size_t length, digits; };
struct request { uint32_t who, at, what; };
struct told { uint32_t took, behind; uint16_t status, tries; int64_t sent; } __attribute__((packed));
struct client {
    int conn, status, closes;
    enum state state;
    uint32_t now, last;
    long wake, begun, patience; /* when it asks, or gives a try up */
    size_t sent, got, left;
    char head[HEAD];
};
struct alarm { long at; uint32_t who; };

static struct text *texts;
static struct request *requests;
static struct told *told;
static struct client *clients;
static struct alarm *alarms;
static size_t count, crowd, busy, first, waiting, room_of_alarms;
static long begin;
static int port, events;

static long clock_of(clockid_t clock) {
    struct timespec at;
    clock_gettime(clock, &at);
    return at.tv_sec * S + at.tv_nsec;
}

static long now(void) { return clock_of(CLOCK_MONOTONIC); }

static void fail(const char *what) {
    perror(what);
    exit(1);
}

static void *room(void *old, size_t size) {
    void *made = realloc(old, size);
    if (!made)
        fail("no memory");
    return made;
}

/* An entrant is looked at then. A heap: what was set before is passed over as it comes. */
static void set(struct client *it, long at) {
    if (waiting == room_of_alarms)
        alarms = room(alarms, (room_of_alarms = 2 * room_of_alarms + 1024) * sizeof *alarms);
    size_t k = waiting++;
    for (; k > 0 && alarms[(k - 1) / 2].at > at; k = (k - 1) / 2)
        alarms[k] = alarms[(k - 1) / 2];
    alarms[k] = (struct alarm){at, it - clients};
    it->wake = at;
}

static struct alarm next_alarm(void) {
    struct alarm top = alarms[0], last = alarms[--waiting];
    size_t k = 0, below;
    while ((below = 2 * k + 1) < waiting) {
        below += below + 1 < waiting && alarms[below + 1].at < alarms[below].at;
        if (alarms[below].at >= last.at)
            break;
        alarms[k] = alarms[below];
        k = below;
    }
    alarms[k] = last;
    return top;
}

static void hang_up(struct client *it) {
    if (it->conn >= 0)
        close(it->conn);
    it->conn = -1;
}

static void open_line(struct client *it) {
    unsigned who = first + (it - clients);
    int one = 1;
    in_addr_t own = htonl(0x7f010000 + who / 250 * 256 + who % 250 + 1);
    struct sockaddr_in from = {.sin_family = AF_INET, .sin_addr.s_addr = own};
    struct sockaddr_in to = {.sin_family = AF_INET, .sin_port = htons(port), .sin_addr.s_addr = htonl(INADDR_LOOPBACK)};
    struct epoll_event event = {.events = EPOLLIN | EPOLLOUT | EPOLLRDHUP | EPOLLET, .data.ptr = it};
    it->conn = socket(AF_INET, SOCK_STREAM | SOCK_NONBLOCK, 0);
    if (it->conn < 0)
        fail("no socket");
    setsockopt(it->conn, IPPROTO_TCP, TCP_NODELAY, &one, sizeof one);
    setsockopt(it->conn, IPPROTO_IP, IP_BIND_ADDRESS_NO_PORT, &one, sizeof one);
    if (bind(it->conn, (struct sockaddr *)&from, sizeof from) != 0)
        fail("no address");
    if (connect(it->conn, (struct sockaddr *)&to, sizeof to) != 0 && errno != EINPROGRESS)
        hang_up(it);
    else
        epoll_ctl(events, EPOLL_CTL_ADD, it->conn, &event);
}

static void again(struct client *it) {
    struct told *one = &told[it->now];
    long pause = PAUSES[one->tries < 5 ? one->tries : 5];
    if (it->status == 429 && pause < 10000)
        pause = 10000;
    one->tries++;
    hang_up(it);
    it->state = RESTING;
    set(it, now() + pause * MS / 5 * 4 + pause * MS / 1000 * (random() % 400));
}

/* Has the entrant's present request asked when it is due, or at once. */
static void rest(struct client *it, long moment) {
    long at = begin + requests[it->now].at * MS;
    it->state = RESTING;
    it->begun = 0;
    it->patience = PATIENCE;
    set(it, at > moment ? at : moment);
}

static void answered(struct client *it) {
    struct told *one = &told[it->now];
    char *denied = strstr(it->head, "{\"denied\":");
    long moment = now();
    if ((it->status != 200 && it->status != 400 && it->status != 403 && it->status != 404)
        || strstr(it->head, "{\"fault\":")) {
        again(it);
        return;
    }
    one->took = (moment - it->begun) / US;
    one->status = denied ? 1000 + atoi(denied + 10) : it->status;
    if (it->closes)
        hang_up(it);
    if (it->now < it->last) {
        it->now++;
        rest(it, moment);
        return;
    }
    it->state = DONE;
    busy--;
    hang_up(it);
}

/* Keeps the head and as much of the body as tells a denial. */
static void take(struct client *it, const char *bytes, size_t size) {
    for (; size > 0 && it->status == 0; bytes++, size--) {
        it->head[it->got++] = *bytes;
        it->head[it->got] = 0;
        if (it->got >= 4 && memcmp(it->head + it->got - 4, "\r\n\r\n", 4) == 0) {
            char *length = strcasestr(it->head, "\r\nContent-Length:");
            it->status = atoi(it->head + strcspn(it->head, " "));
            it->left = length ? strtoul(length + 17, NULL, 10) : 0;
            it->closes = strcasestr(it->head, "\r\nConnection: close") != NULL || !length;
            it->got = 0;
        } else if (it->got == HEAD - 1) {
            fail("a long head");
        }
    }
    for (; size > 0 && it->left > 0; bytes++, size--, it->left--)
        if (it->got < 64)
            it->head[it->got++] = *bytes;
    it->head[it->got] = 0;
}

static void send_more(struct client *it) {
    static char bytes[LONGEST];
    struct text *text = &texts[requests[it->now].what];
    char digits[16];
    memcpy(bytes, text->bytes, text->length);
    snprintf(digits, sizeof digits, "%06u", requests[it->now].who % 1000000);
    memcpy(bytes + text->digits, digits, 6);
    while (it->sent < text->length) {
        ssize_t size = send(it->conn, bytes + it->sent, text->length - it->sent, MSG_NOSIGNAL);
        if (size < 0)
            return; /* not yet; or no more, and there may be a reply all the same */
        it->sent += size;
    }
    if (told[it->now].sent == 0)
        told[it->now].sent = clock_of(CLOCK_REALTIME) / US;
}

static void go_on(struct client *it) {
    static char chunk[CHUNK];
    if (it->sent < texts[requests[it->now].what].length)
        send_more(it);
    while (it->state == ASKING) {
        ssize_t size = recv(it->conn, chunk, CHUNK, 0);
        if (size < 0 && (errno == EAGAIN || errno == ENOTCONN))
            return;
        if (size <= 0) {
            again(it);
            return;
        }
        take(it, chunk, size);
        if (it->status != 0 && it->left == 0)
            answered(it);
    }
}

static void ask(struct client *it, long moment) {
    if (it->begun == 0) {
        it->begun = moment;
        told[it->now].behind = (moment - begin - requests[it->now].at * MS) / US;
    }
    it->state = ASKING;
    it->sent = it->got = it->left = 0;
    it->status = it->closes = 0;
    set(it, moment + it->patience * S);
    if (it->conn < 0)
        open_line(it);
    else
        go_on(it);
    if (it->conn < 0 && it->state == ASKING)
        again(it);
}

static void wake(struct client *it, long moment) {
    if (it->state == RESTING) {
        ask(it, moment);
    } else if (it->state == ASKING) {
        it->patience = 2 * it->patience < LONGEST_PATIENCE ? 2 * it->patience : LONGEST_PATIENCE;
        again(it);
    }
}

static void run(long over) {
    struct epoll_event heard[EVENTS];
    for (long moment; busy > 0 && (moment = now()) < over;) {
        while (waiting > 0 && alarms[0].at <= moment) {
            struct alarm it = next_alarm();
            if (clients[it.who].wake == it.at)
                wake(&clients[it.who], moment);
        }
        int size = epoll_wait(events, heard, EVENTS, 1);
        for (int k = 0; k < size; k++) {
            struct client *it = heard[k].data.ptr;
            if (it->conn >= 0 && it->state == ASKING)
                go_on(it);
            else if (it->conn >= 0 && heard[k].events & (EPOLLRDHUP | EPOLLHUP | EPOLLERR))
                hang_up(it);
        }
    }
}

static void read_all(void) {
    size_t number;
    if (scanf("%zu %zu%*1[\n]", &number, &count) != 2)
        fail("no numbers");
    texts = room(NULL, number * sizeof *texts);
    for (struct text *it = texts; it < texts + number; it++) {
        if (scanf("%zu %zu%*1[\n]", &it->length, &it->digits) != 2 || it->length > LONGEST)
            fail("no text");
        it->bytes = room(NULL, it->length);
        if (fread(it->bytes, 1, it->length, stdin) != it->length)
            fail("no whole text");
    }
    requests = room(NULL, count * sizeof *requests);
    told = calloc(count, sizeof *told);
    if (!told || fread(requests, sizeof *requests, count, stdin) != count)
        fail("no whole requests");
}

int main(int words, char **word) {
    if (words != 5)
        return 2;
    port = atoi(word[1]);
    first = atol(word[2]);
    read_all();
    begin = now() + atol(word[3]) * MS - clock_of(CLOCK_REALTIME);
    events = epoll_create1(0);
    crowd = count ? requests[count - 1].who - first + 1 : 0;
    clients = calloc(crowd, sizeof *clients);
    for (size_t k = 0; k < count; k++) {
        struct client *it = &clients[requests[k].who - first];
        if (k == 0 || requests[k - 1].who != requests[k].who) {
            *it = (struct client){.conn = -1, .now = k};
            busy++;
            rest(it, 0);
        }
        it->last = k;
    }
    run(begin + atol(word[4]) * S);
    return fwrite(told, sizeof *told, count, stdout) != count;
}
