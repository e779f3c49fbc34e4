// Plays many calls by a SIP proxy on the loopback: it is the caller and the telephones of them all.
//
// usage: calls KIND COUNT WORD=NUMBER..
//   KIND      options  OPTIONS to one telephone, which answers 200
//             fail     INVITE to four telephones, each of which answers 486
//             answer   INVITE to four telephones that ring; the first answers 200, the others 487 to their CANCEL
//             two      the same, but once all four ring the first two answer 200 at the same time
//   flight    so many calls at once: one begins where one ends
//   rate      or so many a second, whatever becomes of those before
//   ring      for so many milliseconds all four telephones ring before they answer (fail, answer)
//   lane      0 to 3: ports and users of its own, so that several play at once
//   patience  ends after so many seconds in which nothing came, though calls have not ended (40)
// The proxy listens at 127.0.0.1 port 5060. In lane L the caller is at port 5070 + 100 L, the telephones are at 5081 + 100 L and the three
// next ones; user `oneL` has the first of them, `fourL` all four. Nothing is sent again but the answer to what came
// again: a call whose request found a socket full never ends, so what is played has to be less than the machine bears.
// It prints one line of NAME=NUMBER: calls that were begun and that ended, by what went up; seconds from the first to the last end; the
// median and the 99th of a hundred of what a call took, in microseconds; what came again; calls for which two 200s came; telephones
// of answered calls that still ring; datagrams sent and come; the processor seconds of this program.
#include <arpa/inet.h>
#include <fcntl.h>
#include <poll.h>
#include <stdio.h>
#include <stdlib.h>
#include <string.h>
#include <sys/socket.h>
#include <time.h>
#include <unistd.h>

enum { PROXY = 5060, CALLER = 5070, FIRST = 5081, LANE = 100, TELEPHONES = 4, MOST = 10000000, AT_ONCE = 64 };
enum kind { OPTIONS, FAIL, ANSWER, TWO, KINDS };

static const char *const kinds[] = { "options", "fail", "answer", "two" };

struct call {
    double began, ended;
    // the INVITE as each telephone got it, until that has given its final answer
    char *invites[TELEPHONES];
    unsigned short status;
    unsigned char asked[TELEPHONES], cancelled[TELEPHONES], answered[TELEPHONES], rang, finals;
};

// A call whose telephones answer at this moment.
struct due {
    double at;
    int call;
};

static struct call *calls;
static struct due *dues;
static int sockets[1 + TELEPHONES], run, kind, total, begun, ended, again, first_due, last_due;
static long flight, rate, ring, lane, patience = 40, sent, came;

static double now(void)
{
    struct timespec t;
    clock_gettime(CLOCK_MONOTONIC, &t);
    return t.tv_sec * 1e6 + t.tv_nsec / 1e3;
}

static struct sockaddr_in at(int port)
{
    struct sockaddr_in address = { .sin_family = AF_INET, .sin_port = htons(port) };
    address.sin_addr.s_addr = htonl(INADDR_LOOPBACK);
    return address;
}

static int bound(int port)
{
    int room = 4 << 20, made = socket(AF_INET, SOCK_DGRAM, 0);
    struct sockaddr_in own = at(port);
    // (beyond what rmem_max gives, where the program may)
    if (setsockopt(made, SOL_SOCKET, SO_RCVBUFFORCE, &room, sizeof room))
        setsockopt(made, SOL_SOCKET, SO_RCVBUF, &room, sizeof room);
    if (bind(made, (struct sockaddr *)&own, sizeof own)) {
        perror("bind");
        exit(5);
    }
    fcntl(made, F_SETFL, O_NONBLOCK);
    return made;
}

static void give(int from, const char *text, int length)
{
    struct sockaddr_in to = at(PROXY);
    sent += sendto(sockets[from], text, length, 0, (struct sockaddr *)&to, sizeof to) == length;
}

// ---- the caller

static const char *method(void) { return kind == OPTIONS ? "OPTIONS" : "INVITE"; }

// A request of the caller. The ACK of a failure has the branch of its INVITE.
static void ask(int n, const char *name, const char *to_tag)
{
    char text[1024];
    const char *user = kind == OPTIONS ? "one" : "four";
    int port = CALLER + LANE * lane;
    int length = snprintf(text, sizeof text,
        "%s sip:%s%ld@example.com SIP/2.0\r\nVia: SIP/2.0/UDP 127.0.0.1:%d;branch=z9hG4bK-calls-%d-%d;rport\r\n"
        "Max-Forwards: 70\r\nFrom: \"Caller\" <sip:caller@example.com>;tag=c%d\r\nTo: <sip:%s%ld@example.com>%s\r\n"
        "Call-ID: %d-%d-calls@127.0.0.1\r\nCSeq: 1 %s\r\nContact: <sip:caller@127.0.0.1:%d>\r\nContent-Length: 0\r\n\r\n",
        name, user, lane, port, run, n, n, user, lane, to_tag, n, run, name, port);
    give(0, text, length);
}

static void begin(void)
{
    calls[begun].began = now();
    ask(begun, method(), "");
    begun++;
}

// The value of a header line, up to its end; the empty text where there is none.
static int line_of(const char *text, const char *name, const char **value)
{
    const char *found = strstr(text, name);
    *value = found ? found + strlen(name) : "";
    return found ? (int)strcspn(*value, "\r") : 0;
}

static void acknowledge(int n, const char *text)
{
    const char *to;
    int size = line_of(text, "\r\nTo: ", &to);
    const char *tag = memmem(to, size, ";tag=", 5);
    char copy[128] = "";
    if (tag)
        snprintf(copy, sizeof copy, "%.*s", (int)(to + size - tag), tag);
    ask(n, "ACK", copy);
}

// The number of the call, or -1 where it is none of this run.
static int number_of(const char *text)
{
    const char *value;
    int n, of;
    if (!line_of(text, "Call-ID: ", &value) || sscanf(value, "%d-%d-", &n, &of) != 2 || of != run || n < 0 || n >= total)
        return -1;
    return n;
}

static void at_caller(const char *text)
{
    int n = number_of(text), status = atoi(text + 8);
    if (n < 0 || status < 200)
        return;
    if (kind != OPTIONS && status >= 300)
        acknowledge(n, text);
    if (calls[n].finals++) {
        again += kind != TWO || calls[n].finals > 2;
        return;
    }
    calls[n].status = status;
    calls[n].ended = now();
    ended++;
    if (flight && begun < total)
        begin();
}

// ---- the telephones

// Answers a request as telephone k: all Via lines, From, To, Call-ID and CSeq as they came.
static void answer(int k, const char *request, int status, const char *reason)
{
    char text[4096];
    int length = snprintf(text, sizeof text, "SIP/2.0 %d %s\r\n", status, reason);
    for (const char *line = strstr(request, "\r\n"); line && strncmp(line, "\r\n\r\n", 4); line = strstr(line + 2, "\r\n")) {
        int size = strcspn(line + 2, "\r");
        int is_to = !strncmp(line + 2, "To:", 3);
        if (is_to || !strncmp(line + 2, "Via:", 4) || !strncmp(line + 2, "From:", 5) || !strncmp(line + 2, "Call-ID:", 8)
            || !strncmp(line + 2, "CSeq:", 5))
            length += snprintf(text + length, sizeof text - length, "%.*s%s\r\n", size, line + 2,
                is_to && !memmem(line + 2, size, ";tag=", 5) ? (char[]) { ';', 't', 'a', 'g', '=', 't', '0' + k, 0 } : "");
    }
    length += snprintf(text + length, sizeof text - length, "Contact: <sip:t@127.0.0.1:%ld>\r\nContent-Length: 0\r\n\r\n",
        FIRST + LANE * lane + k);
    give(1 + k, text, length);
}

// The final answer of telephone k to the INVITE of call n, if it has not given it.
static void end_by(int n, int k, int status, const char *reason)
{
    if (!calls[n].invites[k])
        return;
    answer(k, calls[n].invites[k], status, reason);
    free(calls[n].invites[k]);
    calls[n].invites[k] = NULL;
}

// The first telephones answer 200, so many of them.
static void accept_by(int n, int count)
{
    for (int k = 0; k < count; k++) {
        calls[n].answered[k] = 1;
        end_by(n, k, 200, "OK");
    }
}

static void cancelled(int n, int k, const char *text)
{
    answer(k, text, 200, "OK");
    if (calls[n].cancelled[k]++)
        again++;
    else
        end_by(n, k, 487, "Request Terminated");
}

static void rings(int n, int k, const char *text)
{
    calls[n].invites[k] = strdup(text);
    answer(k, text, 180, "Ringing");
    calls[n].rang++;
    if (kind == TWO && calls[n].rang == TELEPHONES)
        accept_by(n, 2);
    if (kind == ANSWER && !ring && k == 0)
        accept_by(n, 1);
    if (ring && calls[n].rang == TELEPHONES)
        dues[last_due++] = (struct due) { .at = now() + ring * 1e3, .call = n };
}

// An INVITE that comes again after telephone k rang: its last answer goes again.
static void answer_again(int n, int k, const char *text)
{
    if (calls[n].invites[k])
        answer(k, text, 180, "Ringing");
    else if (calls[n].answered[k])
        answer(k, text, 200, "OK");
    else if (calls[n].cancelled[k])
        answer(k, text, 487, "Request Terminated");
    else
        answer(k, text, 486, "Busy Here");
}

static void asked(int n, int k, const char *text)
{
    int is_again = calls[n].asked[k]++ > 0;
    again += is_again;
    if (kind == OPTIONS)
        answer(k, text, 200, "OK");
    else if (kind == FAIL && !ring)
        answer(k, text, 486, "Busy Here");
    else if (is_again)
        answer_again(n, k, text);
    else
        rings(n, k, text);
}

static void at_telephone(int k, const char *text)
{
    int n = number_of(text);
    if (n < 0)
        return;
    if (!strncmp(text, "CANCEL", 6))
        cancelled(n, k, text);
    else if (!strncmp(text, method(), strlen(method())))
        asked(n, k, text);
}

// The telephones answer that have rung long enough.
static void answer_due(void)
{
    while (first_due < last_due && dues[first_due].at <= now()) {
        int n = dues[first_due++].call;
        if (kind == ANSWER)
            accept_by(n, 1);
        else
            for (int k = 0; k < TELEPHONES; k++)
                end_by(n, k, 486, "Busy Here");
    }
}

// ---- playing

// Begins what is to be begun by now, a few calls at a time.
static void begin_due(double started)
{
    for (int i = 0; i < AT_ONCE && rate && begun < total && begun < (now() - started) * 1e-6 * rate; i++)
        begin();
}

// Takes what has come, a few datagrams of each socket at a time; says whether there was one.
static int take(struct pollfd *fds)
{
    static char text[65536];
    int any = 0;
    for (int i = 0; i <= TELEPHONES; i++)
        for (int turn = 0; turn < AT_ONCE && fds[i].revents; turn++) {
            ssize_t got = recv(sockets[i], text, sizeof text - 1, 0);
            if (got <= 0)
                break;
            text[got] = 0;
            any = 1;
            came++;
            if (i)
                at_telephone(i - 1, text);
            else
                at_caller(text);
        }
    return any;
}

// Plays until all calls have ended and nothing came for a second, such as the CANCELs of the last one.
static void play(void)
{
    double started = now(), heard = started;
    struct pollfd fds[1 + TELEPHONES];
    for (int i = 0; i <= TELEPHONES; i++)
        fds[i] = (struct pollfd) { .fd = sockets[i], .events = POLLIN };
    while (begun < flight && begun < total)
        begin();
    while (now() - heard < 1e6 || (ended < total && now() - heard < patience * 1e6)) {
        begin_due(started);
        answer_due();
        if (poll(fds, 1 + TELEPHONES, rate || ring ? 1 : 100) > 0 && take(fds))
            heard = now();
    }
}

static int by_size(const void *a, const void *b)
{
    double x = *(const double *)a, y = *(const double *)b;
    return (x > y) - (x < y);
}

// How many telephones rang that neither answered nor got a CANCEL, of calls that were answered.
static int left_ringing(void)
{
    int left = 0;
    for (int n = 0; n < total; n++)
        for (int k = 0; k < TELEPHONES && calls[n].status / 100 == 2 && kind != OPTIONS; k++)
            left += calls[n].asked[k] && !calls[n].answered[k] && !calls[n].cancelled[k];
    return left;
}

static void tell(double start)
{
    double *spans = calloc(total, sizeof *spans), last = start + 1;
    int spent = 0, ok = 0, refused = 0, busy = 0, both = 0;
    for (int n = 0; n < total; n++) {
        if (!calls[n].finals)
            continue;
        spans[spent++] = calls[n].ended - calls[n].began;
        last = calls[n].ended > last ? calls[n].ended : last;
        ok += calls[n].status / 100 == 2;
        busy += calls[n].status == 486;
        refused += calls[n].status == 503;
        both += calls[n].finals == 2;
    }
    qsort(spans, spent, sizeof *spans, by_size);
    struct timespec own;
    clock_gettime(CLOCK_PROCESS_CPUTIME_ID, &own);
    printf("begun=%d ended=%d answered=%d busy=%d refused=%d seconds=%.3f median=%.0f p99=%.0f worst=%.0f again=%d both=%d ringing=%d sent=%ld came=%ld own=%.3f\n",
        begun, ended, ok, busy, refused, (last - start) / 1e6, spent ? spans[spent / 2] : 0, spent ? spans[(long)spent * 99 / 100] : 0,
        spent ? spans[spent - 1] : 0, again, both, left_ringing(), sent, came, own.tv_sec + own.tv_nsec / 1e9);
}

static int read_word(const char *word)
{
    static const char *const names[] = { "flight", "rate", "ring", "lane", "patience" };
    long *const places[] = { &flight, &rate, &ring, &lane, &patience };
    for (int i = 0; i < 5; i++) {
        size_t size = strlen(names[i]);
        if (!strncmp(word, names[i], size) && word[size] == '=') {
            *places[i] = atol(word + size + 1);
            return 1;
        }
    }
    return 0;
}

int main(int count, char **words)
{
    int well = count >= 4;
    for (kind = 0; well && kind < KINDS && strcmp(words[1], kinds[kind]);)
        kind++;
    for (int i = 3; i < count; i++)
        well = well && read_word(words[i]);
    total = well ? atoi(words[2]) : 0;
    if (kind == KINDS || total < 1 || total > MOST || (flight > 0) == (rate > 0)) {
        fprintf(stderr, "usage: calls options|fail|answer|two COUNT flight=N|rate=N [ring=MS] [lane=N] [patience=SECONDS]\n");
        return 2;
    }
    run = getpid();
    calls = calloc(total, sizeof *calls);
    dues = calloc(total, sizeof *dues);
    for (int i = 0; i <= TELEPHONES; i++)
        sockets[i] = bound((i ? FIRST + i - 1 : CALLER) + LANE * lane);
    double start = now();
    play();
    tell(start);
    return ended != total;
}
