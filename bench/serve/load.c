// A load generator for a SIP proxy on the loopback: it is the caller and the targets of many calls at once.
//
// usage: load KIND CALLS IN_FLIGHT [PID]     at most 1,000 calls in flight of `answer` and `two`
//   KIND     options: OPTIONS to one target, which answers 200
//            fail:    INVITE to four targets, each of which answers 486
//            answer:  INVITE to four targets, all of which ring; the first answers 200, the others 487 to their CANCEL
//            two:     the same, but once all four ring the first two answer 200 at the same time
//            keep:    OPTIONS to one target, which is silent; ends after a second in which nothing came
//            ring:    INVITE to four targets, all of which ring and do no more; ends so, too
//   PID      that of the proxy: its processor time, and how much its memory has grown, are told
// The proxy listens at 127.0.0.1 port 5060 with the configuration `setup.txt` beside this file; the caller is at port 5070, the
// targets at 5081 to 5084. For each run it prints: calls ended, calls a second, latency of a call in microseconds (median,
// 99th of a hundred), datagrams that came again, processor time of the proxy for a call in microseconds.
#include <arpa/inet.h>
#include <fcntl.h>
#include <poll.h>
#include <stdio.h>
#include <stdlib.h>
#include <string.h>
#include <sys/socket.h>
#include <time.h>
#include <unistd.h>

enum { PROXY = 5060, CALLER = 5070, FIRST_TARGET = 5081, TARGETS = 4, MOST = 200000, HELD = 1024 };
enum kind { OPTIONS, FAIL, ANSWER, TWO, KEEP, RING, KINDS };

static const char *const kinds[] = { "options", "fail", "answer", "two", "keep", "ring" };

struct call {
    double began, ended;
    unsigned char asked[TARGETS], cancelled[TARGETS], answered[TARGETS], rang, finals;
};

// The INVITEs of the calls in flight, as each target got them.
static char invites[HELD][TARGETS][2048];

static struct call calls[MOST];
static int sockets[1 + TARGETS], run, kind, total, in_flight, begun, ended, again;

static double now(void)
{
    struct timespec t;
    clock_gettime(CLOCK_MONOTONIC, &t);
    return t.tv_sec * 1e6 + t.tv_nsec / 1e3;
}

static struct sockaddr_in at(int port)
{
    struct sockaddr_in address = { .sin_family = AF_INET, .sin_port = htons(port) };
    address.sin_addr.s_addr = htonl(INADDR_LOOPBACK);
    return address;
}

static int bound(int port)
{
    int room = 4 << 20, made = socket(AF_INET, SOCK_DGRAM, 0);
    struct sockaddr_in own = at(port);
    setsockopt(made, SOL_SOCKET, SO_RCVBUF, &room, sizeof room);
    if (bind(made, (struct sockaddr *)&own, sizeof own)) {
        perror("bind");
        exit(5);
    }
    fcntl(made, F_SETFL, O_NONBLOCK);
    return made;
}

static void give(int from, const char *text, int length)
{
    struct sockaddr_in to = at(PROXY);
    sendto(sockets[from], text, length, 0, (struct sockaddr *)&to, sizeof to);
}

static int is_options(void) { return kind == OPTIONS || kind == KEEP; }

static const char *method(void) { return is_options() ? "OPTIONS" : "INVITE"; }

// A request of the caller. The ACK of a failure has the branch of its INVITE.
static void ask(int n, const char *name, const char *to_tag)
{
    char text[1024];
    int length = snprintf(text, sizeof text,
        "%s sip:%s@example.com SIP/2.0\r\nVia: SIP/2.0/UDP 127.0.0.1:5070;branch=z9hG4bK-load-%d-%d;rport\r\n"
        "Max-Forwards: 70\r\nFrom: \"Caller\" <sip:caller@example.com>;tag=c%d\r\nTo: <sip:%s@example.com>%s\r\n"
        "Call-ID: %d-%d-load@127.0.0.1\r\nCSeq: 1 %s\r\nContact: <sip:caller@127.0.0.1:5070>\r\nContent-Length: 0\r\n\r\n",
        name, is_options() ? "one" : "four", run, n, n, is_options() ? "one" : "four", to_tag, n, run, name);
    give(0, text, length);
}

static void begin(void)
{
    calls[begun].began = now();
    ask(begun, method(), "");
    begun++;
}

// The value of a header line, up to its end; the empty text where there is none.
static int line_of(const char *text, const char *name, const char **value)
{
    const char *found = strstr(text, name);
    *value = found ? found + strlen(name) : "";
    return found ? (int)strcspn(*value, "\r") : 0;
}

// Answers a request as target k: all Via lines, From, To, Call-ID and CSeq as they came.
static void answer(int k, const char *request, int status, const char *reason)
{
    char text[4096];
    int length = snprintf(text, sizeof text, "SIP/2.0 %d %s\r\n", status, reason);
    for (const char *line = strstr(request, "\r\n"); line && strncmp(line, "\r\n\r\n", 4); line = strstr(line + 2, "\r\n")) {
        int size = strcspn(line + 2, "\r");
        int is_to = !strncmp(line + 2, "To:", 3);
        if (is_to || !strncmp(line + 2, "Via:", 4) || !strncmp(line + 2, "From:", 5) || !strncmp(line + 2, "Call-ID:", 8)
            || !strncmp(line + 2, "CSeq:", 5))
            length += snprintf(text + length, sizeof text - length, "%.*s%s\r\n", size, line + 2,
                is_to && !memmem(line + 2, size, ";tag=", 5) ? (char[]) { ';', 't', 'a', 'g', '=', 't', '0' + k, 0 } : "");
    }
    length += snprintf(text + length, sizeof text - length, "Contact: <sip:t@127.0.0.1:%d>\r\nContent-Length: 0\r\n\r\n", FIRST_TARGET + k);
    give(1 + k, text, length);
}

// The number of the call, or -1 where it is none of this run.
static int number_of(const char *text)
{
    const char *value;
    int n, of;
    if (!line_of(text, "Call-ID: ", &value) || sscanf(value, "%d-%d-", &n, &of) != 2 || of != run || n < 0 || n >= total)
        return -1;
    return n;
}

static void cancelled(int n, int k, const char *text)
{
    answer(k, text, 200, "OK");
    if (calls[n].cancelled[k]++) {
        again++;
        return;
    }
    if (calls[n].answered[k])
        return;
    char invite[4096];
    snprintf(invite, sizeof invite, "%.4000s", text);
    char *cseq = strstr(invite, "CSeq: 1 CANCEL");
    if (cseq)
        memcpy(cseq, "CSeq: 1 INVITE", 14);
    answer(k, invite, 487, "Request Terminated");
}

// The first targets answer 200, so many of them.
static void accept_by(int n, int count)
{
    for (int k = 0; k < count; k++) {
        calls[n].answered[k] = 1;
        answer(k, invites[n % HELD][k], 200, "OK");
    }
}

static void asked(int n, int k, const char *text)
{
    if (calls[n].asked[k]++) {
        again++;
        return;
    }
    snprintf(invites[n % HELD][k], sizeof invites[0][0], "%.2000s", text);
    if (kind == FAIL)
        answer(k, text, 486, "Busy Here");
    if (kind == OPTIONS)
        answer(k, text, 200, "OK");
    if (kind == ANSWER || kind == TWO || kind == RING) {
        answer(k, text, 180, "Ringing");
        calls[n].rang++;
    }
    if (kind == ANSWER && k == 0)
        accept_by(n, 1);
    if (kind == TWO && calls[n].rang == TARGETS)
        accept_by(n, 2);
}

static void at_target(int k, const char *text)
{
    int n = number_of(text);
    if (n < 0)
        return;
    if (!strncmp(text, "CANCEL", 6))
        cancelled(n, k, text);
    else if (!strncmp(text, method(), strlen(method())))
        asked(n, k, text);
}

static void at_caller(const char *text)
{
    int n = number_of(text), status = atoi(text + 8);
    if (n < 0 || status < 200)
        return;
    if (kind == FAIL) {
        const char *to;
        int size = line_of(text, "\r\nTo: ", &to);
        const char *tag = memmem(to, size, ";tag=", 5);
        char copy[128] = "";
        if (tag)
            snprintf(copy, sizeof copy, "%.*s", (int)(to + size - tag), tag);
        ask(n, "ACK", copy);
    }
    if (calls[n].finals++) {
        again += kind != TWO;
        return;
    }
    calls[n].ended = now();
    ended++;
    if (begun < total)
        begin();
}

static int by_size(const void *a, const void *b)
{
    double x = *(const double *)a, y = *(const double *)b;
    return (x > y) - (x < y);
}

// The processor time that a process has taken, in microseconds, to the nanosecond: a tick of /proc is a twentieth of what a short
// run of the null relay takes.
static double processor_time(int pid)
{
    clockid_t of;
    struct timespec t;
    if (clock_getcpuclockid(pid, &of) || clock_gettime(of, &t))
        return 0;
    return t.tv_sec * 1e6 + t.tv_nsec / 1e3;
}

// The memory that a process holds, in bytes.
static double memory(int pid)
{
    char path[64];
    long pages = 0;
    snprintf(path, sizeof path, "/proc/%d/statm", pid);
    FILE *file = fopen(path, "r");
    if (!file)
        return 0;
    if (fscanf(file, "%*d %ld", &pages) != 1)
        pages = 0;
    fclose(file);
    return (double)pages * sysconf(_SC_PAGESIZE);
}

// Plays until all calls have ended and nothing came for a second, such as the CANCELs of the last one; it waits 40 seconds at
// most for the end of a call. Calls that never end are begun at once.
static void play(void)
{
    double heard = now();
    int never_end = kind == KEEP || kind == RING;
    while (begun < in_flight && begun < total)
        begin();
    struct pollfd fds[1 + TARGETS];
    for (int i = 0; i <= TARGETS; i++)
        fds[i] = (struct pollfd) { .fd = sockets[i], .events = POLLIN };
    static char text[65536];
    while ((!never_end && ended < total && now() - heard < 40e6) || begun < in_flight || now() - heard < 1e6) {
        if (poll(fds, 1 + TARGETS, 100) <= 0)
            continue;
        for (int i = 0; i <= TARGETS; i++)
            for (ssize_t got; fds[i].revents && (got = recv(sockets[i], text, sizeof text - 1, 0)) > 0;) {
                text[got] = 0;
                heard = now();
                if (i)
                    at_target(i - 1, text);
                else
                    at_caller(text);
            }
    }
}

// How many targets rang that neither answered nor got a CANCEL, and are in calls that were answered.
static int left_ringing(void)
{
    int left = 0;
    for (int n = 0; n < total; n++)
        for (int k = 0; k < TARGETS; k++)
            left += calls[n].asked[k] && !calls[n].answered[k] && !calls[n].cancelled[k];
    return left;
}

static void tell(double start)
{
    static double spans[MOST];
    int spent = 0;
    double last = start + 1;
    for (int n = 0; n < total; n++) {
        if (calls[n].finals)
            spans[spent++] = calls[n].ended - calls[n].began;
        if (calls[n].ended > last)
            last = calls[n].ended;
    }
    qsort(spans, spent, sizeof *spans, by_size);
    printf("%s %d: %d of %d calls, %.0f a second, median %.0f us, 99th %.0f us, %d again", kinds[kind], in_flight, ended, total,
        ended / (last - start) * 1e6, spent ? spans[spent / 2] : 0, spent ? spans[spent * 99 / 100] : 0, again);
    if (kind == ANSWER || kind == TWO)
        printf(", %d left ringing", left_ringing());
}

int main(int count, char **words)
{
    for (kind = 0; count > 1 && kind < KINDS && strcmp(words[1], kinds[kind]);)
        kind++;
    if (count < 4 || count > 5 || kind == KINDS) {
        fprintf(stderr, "usage: load options|fail|answer|two|keep|ring CALLS IN_FLIGHT [PID]\n");
        return 2;
    }
    run = getpid();
    total = atoi(words[2]) < MOST ? atoi(words[2]) : MOST;
    in_flight = atoi(words[3]);
    int pid = count == 5 ? atoi(words[4]) : 0;
    sockets[0] = bound(CALLER);
    for (int k = 0; k < TARGETS; k++)
        sockets[1 + k] = bound(FIRST_TARGET + k);
    double used = processor_time(pid), held = memory(pid), start = now();
    play();
    tell(start);
    if (pid)
        printf(", processor %.1f us a call, memory %.1f kB a call", (processor_time(pid) - used) / total, (memory(pid) - held) / total / 1e3);
    printf("\n");
    return kind < KEEP && ended != total;
}
