// Sends prepared REGISTERs to a registrar on the loopback, and hears its answers.
//
// usage: registers FILE COUNT WORD=NUMBER..
//   FILE      the requests: of each its length, four bytes, least byte first, and its bytes; the first branch of the n-th is z9hG4bK-n-
//   COUNT     so many of them are sent, from the first one on
//   flight    so many at once: one is sent where one is answered
//   rate      or so many a second, whatever becomes of those before
//   from      the port of the sender (5070)
//   patience  ends after so many seconds in which nothing came, though requests have no answer (5)
// The registrar listens at 127.0.0.1 port 5060, the sender is at 127.0.0.2. A request without an answer is sent again after half a second, and then after twice as long each
// time, up to four seconds. It prints one line of NAME=NUMBER: requests that were begun and that were answered, how many with 200; seconds from
// the first to the last answer; the median and the 99th of a hundred of what an answer took, in microseconds; what was sent again; the processor
// seconds of this program.
#include <arpa/inet.h>
#include <fcntl.h>
#include <poll.h>
#include <stdio.h>
#include <stdlib.h>
#include <string.h>
#include <sys/socket.h>
#include <time.h>
#include <unistd.h>

enum { REGISTRAR = 5060, SENDER = 0x7f000002, MOST = 10000000, AT_ONCE = 64 };

struct request {
    const char *text;
    int size, status, turns;
    double began, ended, next;
};

static struct request *requests;
static int way, total, begun, ended, again, oldest;
static long flight, rate, from = 5070, patience = 5;

static double now(void)
{
    struct timespec t;
    clock_gettime(CLOCK_MONOTONIC, &t);
    return t.tv_sec * 1e6 + t.tv_nsec / 1e3;
}

static struct sockaddr_in at(int port)
{
    struct sockaddr_in address = { .sin_family = AF_INET, .sin_port = htons(port) };
    address.sin_addr.s_addr = htonl(INADDR_LOOPBACK);
    return address;
}

static void open_way(void)
{
    int room = 4 << 20;
    struct sockaddr_in own = at(from);
    own.sin_addr.s_addr = htonl(SENDER);
    way = socket(AF_INET, SOCK_DGRAM, 0);
    // (beyond what rmem_max gives, where the program may)
    if (setsockopt(way, SOL_SOCKET, SO_RCVBUFFORCE, &room, sizeof room))
        setsockopt(way, SOL_SOCKET, SO_RCVBUF, &room, sizeof room);
    if (bind(way, (struct sockaddr *)&own, sizeof own)) {
        perror("bind");
        exit(5);
    }
    fcntl(way, F_SETFL, O_NONBLOCK);
}

// Reads the requests; their bytes stay in one piece of memory.
static int read_requests(const char *path)
{
    FILE *file = fopen(path, "rb");
    if (!file)
        return 0;
    fseek(file, 0, SEEK_END);
    long size = ftell(file);
    rewind(file);
    unsigned char *text = malloc(size + 1);
    if (!text || fread(text, 1, size, file) != (size_t)size)
        return 0;
    fclose(file);
    int read = 0;
    for (long place = 0; place + 4 <= size && read < total; read++) {
        int length = text[place] | text[place + 1] << 8 | text[place + 2] << 16 | text[place + 3] << 24;
        requests[read] = (struct request) { .text = (char *)text + place + 4, .size = length };
        place += 4 + length;
    }
    return read == total;
}

static void give(struct request *one)
{
    struct sockaddr_in to = at(REGISTRAR);
    int wait = one->turns > 3 ? 8 : 1 << one->turns;
    sendto(way, one->text, one->size, 0, (struct sockaddr *)&to, sizeof to);
    one->next = now() + wait * 5e5;
    one->turns++;
}

static void begin(void)
{
    requests[begun].began = now();
    give(&requests[begun]);
    begun++;
}

// Which request is answered, by the branch; -1 where it is none of these.
static int number_of(const char *text)
{
    const char *found = strstr(text, "branch=z9hG4bK-");
    int n;
    if (!found || sscanf(found, "branch=z9hG4bK-%d-", &n) != 1 || n < 0 || n >= begun)
        return -1;
    return n;
}

static void heard(const char *text)
{
    int n = number_of(text), status = atoi(text + 8);
    if (n < 0 || status < 200 || requests[n].status)
        return;
    requests[n].status = status;
    requests[n].ended = now();
    ended++;
    if (flight && begun < total)
        begin();
}

// Sends again what has waited long enough for its answer.
static void send_again(void)
{
    double moment = now();
    while (oldest < begun && requests[oldest].status)
        oldest++;
    for (int n = oldest; n < begun; n++)
        if (!requests[n].status && requests[n].next <= moment) {
            give(&requests[n]);
            again++;
        }
}

static int take(void)
{
    static char text[65536];
    int any = 0;
    for (int turn = 0; turn < AT_ONCE; turn++) {
        ssize_t got = recv(way, text, sizeof text - 1, 0);
        if (got <= 0)
            break;
        text[got] = 0;
        any = 1;
        heard(text);
    }
    return any;
}

static void play(void)
{
    double started = now(), last = started, looked = started;
    struct pollfd fd = { .fd = way, .events = POLLIN };
    while (begun < flight && begun < total)
        begin();
    while (ended < total && now() - last < patience * 1e6) {
        for (int i = 0; i < AT_ONCE && rate && begun < total && begun < (now() - started) * 1e-6 * rate; i++)
            begin();
        if (poll(&fd, 1, rate ? 1 : 50) > 0 && take())
            last = now();
        if (now() - looked > 1e5) {
            send_again();
            looked = now();
        }
    }
}

static int by_size(const void *a, const void *b)
{
    double x = *(const double *)a, y = *(const double *)b;
    return (x > y) - (x < y);
}

static void tell(double start)
{
    double *spans = calloc(total, sizeof *spans), last = start + 1;
    int spent = 0, ok = 0;
    for (int n = 0; n < total; n++) {
        if (!requests[n].status)
            continue;
        spans[spent++] = requests[n].ended - requests[n].began;
        last = requests[n].ended > last ? requests[n].ended : last;
        ok += requests[n].status == 200;
    }
    qsort(spans, spent, sizeof *spans, by_size);
    struct timespec own;
    clock_gettime(CLOCK_PROCESS_CPUTIME_ID, &own);
    printf("begun=%d ended=%d ok=%d seconds=%.3f median=%.0f p99=%.0f worst=%.0f again=%d own=%.3f\n", begun, ended, ok, (last - start) / 1e6,
        spent ? spans[spent / 2] : 0, spent ? spans[(long)spent * 99 / 100] : 0, spent ? spans[spent - 1] : 0, again, own.tv_sec + own.tv_nsec / 1e9);
}

static int read_word(const char *word)
{
    static const char *const names[] = { "flight", "rate", "from", "patience" };
    long *const places[] = { &flight, &rate, &from, &patience };
    for (int i = 0; i < 4; i++) {
        size_t size = strlen(names[i]);
        if (!strncmp(word, names[i], size) && word[size] == '=') {
            *places[i] = atol(word + size + 1);
            return 1;
        }
    }
    return 0;
}

int main(int count, char **words)
{
    int well = count >= 4;
    for (int i = 3; i < count; i++)
        well = well && read_word(words[i]);
    total = well ? atoi(words[2]) : 0;
    if (total < 1 || total > MOST || (flight > 0) == (rate > 0)) {
        fprintf(stderr, "usage: registers FILE COUNT flight=N|rate=N [from=PORT] [patience=SECONDS]\n");
        return 2;
    }
    requests = calloc(total, sizeof *requests);
    if (!read_requests(words[1])) {
        fprintf(stderr, "%s has not so many requests\n", words[1]);
        return 2;
    }
    open_way();
    double start = now();
    play();
    tell(start);
    return ended != total;
}
