/* The smallest client of an STK500v2 programmer: sends a file's frames over TCP one by one, and receives one reply to each.
 *
 *     least_client PORT FILE
 */
#include <arpa/inet.h>
#include <netinet/in.h>
#include <netinet/tcp.h>
#include <stdio.h>
#include <stdlib.h>
#include <sys/socket.h>
#include <unistd.h>

enum { HEADER = 5, LONGEST = 281, FRAMES = 1 << 20 };

static unsigned char frames[FRAMES];

/* Returns the length of a frame, from the size in its header. */
static size_t length_of(const unsigned char *frame)
{
    return HEADER + 1 + (frame[2] << 8 | frame[3]);
}

/* Receives one reply; no other bytes are on the link. */
static int hear(int line)
{
    unsigned char answer[LONGEST];
    size_t held = 0;
    while (held < HEADER || held < length_of(answer)) {
        ssize_t count = recv(line, answer + held, sizeof answer - held, 0);
        if (count <= 0)
            return 0;
        held += count;
    }
    return 1;
}

int main(int count, char **words)
{
    struct sockaddr_in at = {.sin_family = AF_INET, .sin_addr.s_addr = htonl(INADDR_LOOPBACK)};
    int yes = 1;
    if (count != 3)
        return 2;
    FILE *file = fopen(words[2], "rb");
    if (!file)
        return 2;
    size_t size = fread(frames, 1, sizeof frames, file);
    at.sin_port = htons(atoi(words[1]));
    int line = socket(AF_INET, SOCK_STREAM, 0);
    if (line < 0 || connect(line, (struct sockaddr *)&at, sizeof at) < 0)
        return 1;
    setsockopt(line, IPPROTO_TCP, TCP_NODELAY, &yes, sizeof yes);
    for (size_t from = 0; from < size; from += length_of(frames + from)) {
        size_t length = length_of(frames + from);
        if (send(line, frames + from, length, 0) != (ssize_t)length || !hear(line))
            return 1;
    }
    return 0;
}
