// A null relay: what the load generator is compared with. It looks at no datagram: what comes from the caller's port goes to
// the target's, and what comes from there goes to the caller's.
// usage: relay PORT CALLER_PORT TARGET_PORT
#include <arpa/inet.h>
#include <stdio.h>
#include <stdlib.h>
#include <sys/socket.h>

static struct sockaddr_in at(int port)
{
    struct sockaddr_in address = { .sin_family = AF_INET, .sin_port = htons(port) };
    address.sin_addr.s_addr = htonl(INADDR_LOOPBACK);
    return address;
}

int main(int count, char **words)
{
    if (count != 4) {
        fprintf(stderr, "usage: relay PORT CALLER_PORT TARGET_PORT\n");
        return 2;
    }
    struct sockaddr_in own = at(atoi(words[1])), caller = at(atoi(words[2])), target = at(atoi(words[3])), from;
    int room = 4 << 20, socket_of = socket(AF_INET, SOCK_DGRAM, 0);
    setsockopt(socket_of, SOL_SOCKET, SO_RCVBUF, &room, sizeof room);
    if (bind(socket_of, (struct sockaddr *)&own, sizeof own)) {
        perror("bind");
        return 5;
    }
    static char bytes[65535];
    for (;;) {
        socklen_t length = sizeof from;
        ssize_t got = recvfrom(socket_of, bytes, sizeof bytes, 0, (struct sockaddr *)&from, &length);
        if (got < 0)
            continue;
        struct sockaddr_in *to = from.sin_port == caller.sin_port ? &target : &caller;
        sendto(socket_of, bytes, got, 0, (struct sockaddr *)to, sizeof *to);
    }
}
