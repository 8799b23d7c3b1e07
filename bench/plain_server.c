/* The yardstick of bench/serve.py: one connection after another, each request answered by the file of its path, which is read whole into a
   buffer that is kept, behind the head, and written once. The words are the port and, where reads are to be shorter, how many bytes each takes. */
#include <arpa/inet.h>
#include <fcntl.h>
#include <netinet/tcp.h>
#include <stdio.h>
#include <stdlib.h>
#include <string.h>
#include <sys/socket.h>
#include <sys/stat.h>
#include <time.h>
#include <unistd.h>

static int write_all(int link, const char *text, size_t length)
{
    while (length > 0) {
        ssize_t took = write(link, text, length);
        if (took <= 0)
            return -1;
        text += took;
        length -= took;
    }
    return 0;
}

/* How many bytes a read of a file takes, at most. */
static size_t read_limit = (size_t)1 << 30;

static size_t least(size_t one, size_t other)
{
    return one < other ? one : other;
}

/* Answers the request, and tells whether the connection stays. */
static int answer(int link, char *ask, char **room, size_t *size)
{
    char *path = strchr(ask, '/'), *end = path ? strchr(path, ' ') : NULL;
    struct stat known;
    char date[64];
    time_t now = time(NULL);
    int file, closes = strstr(ask, "Connection: close") != NULL;

    if (!end)
        return 0;
    *end = 0;
    file = open(path + 1, O_RDONLY);
    if (file < 0 || fstat(file, &known) < 0)
        return 0;
    if (*size < (size_t)known.st_size + 512) {
        *size = known.st_size + 512;
        *room = realloc(*room, *size);
        if (!*room)
            exit(1);
    }
    strftime(date, sizeof date, "%a, %d %b %Y %H:%M:%S GMT", gmtime(&now));
    size_t length = sprintf(*room, "HTTP/1.1 200 OK\r\nDate: %s\r\nContent-Length: %lld\r\n\r\n", date, (long long)known.st_size);
    for (ssize_t took; (took = read(file, *room + length, least(read_limit, *size - length))) > 0; length += took)
        ;
    close(file);
    return write_all(link, *room, length) == 0 && !closes;
}

static void serve(int link, char **room, size_t *size)
{
    char ask[8193];
    size_t held = 0;

    for (;;) {
        ssize_t took = read(link, ask + held, sizeof ask - 1 - held);
        if (took <= 0)
            return;
        held += took;
        ask[held] = 0;
        if (!strstr(ask, "\r\n\r\n"))
            continue;
        if (!answer(link, ask, room, size))
            return;
        held = 0;
    }
}

int main(int count, char **words)
{
    struct sockaddr_in at = {.sin_family = AF_INET, .sin_addr.s_addr = htonl(INADDR_LOOPBACK)};
    int door = socket(AF_INET, SOCK_STREAM, 0), on = 1;
    char *room = NULL;
    size_t size = 0;

    at.sin_port = htons(count > 1 ? atoi(words[1]) : 8080);
    if (count > 2)
        read_limit = atoi(words[2]);
    setsockopt(door, SOL_SOCKET, SO_REUSEADDR, &on, sizeof on);
    if (bind(door, (struct sockaddr *)&at, sizeof at) < 0 || listen(door, 128) < 0)
        return 1;
    for (;;) {
        int link = accept(door, NULL, NULL);
        if (link < 0)
            continue;
        setsockopt(link, IPPROTO_TCP, TCP_NODELAY, &on, sizeof on);
        serve(link, &room, &size);
        close(link);
    }
}
