// Datagrams that no honest peer sends, at a proxy on 127.0.0.1 port 5060: every second one is of random bytes, the others are
// messages in which a few bytes were overwritten, left out, doubled or cut off. They come from port 5079, so many a second.
// usage: hostile COUNT A_SECOND SEED
#include <arpa/inet.h>
#include <stdio.h>
#include <stdlib.h>
#include <string.h>
#include <sys/socket.h>
#include <time.h>
#include <unistd.h>

enum { PROXY = 5060, OWN = 5079, MOST = 4096 };

#define FIELDS(branch, method) \
    "Via: SIP/2.0/UDP 127.0.0.1:5079;branch=z9hG4bK" branch ";rport\r\nMax-Forwards: 70\r\n" \
    "From: \"H\" <sip:h@example.com>;tag=h1\r\nTo: <sip:four@example.com>\r\nCall-ID: hostile@127.0.0.1\r\nCSeq: 1 " method "\r\n" \
    "Contact: <sip:h@127.0.0.1:5079>\r\nContent-Length: 0\r\n\r\n"

static const char *const messages[] = {
    "INVITE sip:four@example.com SIP/2.0\r\n" FIELDS("-h1", "INVITE"),
    "OPTIONS sip:one@example.com SIP/2.0\r\n" FIELDS("-h2", "OPTIONS"),
    "CANCEL sip:four@example.com SIP/2.0\r\n" FIELDS("-h1", "CANCEL"),
    "ACK sip:four@example.com SIP/2.0\r\n" FIELDS("-h1", "ACK"),
    "INVITE sip:four@example.com SIP/2.0\r\nRoute: <sip:127.0.0.1:5060;lr>\r\n" FIELDS("-h3", "INVITE"),
    "SIP/2.0 200 OK\r\nVia: SIP/2.0/UDP 127.0.0.1:5060;branch=z9hG4bK00000000000000000000000000000000.1.0.0\r\n" FIELDS("-h1", "INVITE"),
    "SIP/2.0 302 Moved\r\nVia: SIP/2.0/UDP 127.0.0.1:5060;branch=z9hG4bK00000000000000000000000000000000.1.7.3\r\n" FIELDS("-h1", "INVITE"),
};

static int below(int bound) { return rand() % bound; }

static int random_bytes(char *text)
{
    int length = below(1500);
    for (int i = 0; i < length; i++)
        text[i] = (char)rand();
    return length;
}

static int mutated(char *text, int n)
{
    int length = snprintf(text, MOST, "%s", messages[below(sizeof messages / sizeof *messages)]);
    // most of them are no repetition of an earlier one
    char *branch = strstr(text, "bK-h");
    if (branch && n % 4)
        branch[3] = (char)('a' + below(26)), branch[4] = (char)('a' + below(26));
    for (int left = 1 + below(8); left > 0 && length > 40; left--) {
        int at = below(length), size = 1 + below(20) < length - at ? 1 + below(20) : 1;
        if (at + size > length)
            size = length - at;
        switch (below(4)) {
        case 0:
            text[at] = (char)rand();
            break;
        case 1:
            memmove(text + at, text + at + size, length - at - size);
            length -= size;
            break;
        case 2:
            if (length + size < MOST) {
                memmove(text + at + size, text + at, length - at);
                length += size;
            }
            break;
        default:
            if (!below(6))
                length = at;
        }
    }
    return length;
}

int main(int count, char **words)
{
    if (count != 4) {
        fprintf(stderr, "usage: hostile COUNT A_SECOND SEED\n");
        return 2;
    }
    int total = atoi(words[1]), rate = atoi(words[2]), from = socket(AF_INET, SOCK_DGRAM, 0);
    srand(atoi(words[3]));
    struct sockaddr_in to = { .sin_family = AF_INET, .sin_port = htons(PROXY) }, own = to;
    own.sin_port = htons(OWN);
    own.sin_addr.s_addr = to.sin_addr.s_addr = htonl(INADDR_LOOPBACK);
    if (rate <= 0 || bind(from, (struct sockaddr *)&own, sizeof own)) {
        perror("bind");
        return 5;
    }
    static char text[MOST];
    int sent = 0;
    for (int n = 0; n < total; n++) {
        int length = n % 2 ? mutated(text, n) : random_bytes(text);
        sent += sendto(from, text, length, 0, (struct sockaddr *)&to, sizeof to) == length;
        nanosleep(&(struct timespec) { .tv_nsec = 1000000000L / rate % 1000000000L }, NULL);
    }
    printf("hostile: %d of %d sent\n", sent, total);
    return sent != total;
}
