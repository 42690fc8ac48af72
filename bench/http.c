// The client of bench/http, and a bare loop to compare the server with.
//
//   http ask PORT FILE N     sends the request in FILE N times, each after the answer to the one before
//   http ahead PORT FILE N   sends it N times without waiting, while it reads the answers
//   http loop PORT LEN TEXT  a server: reads LEN bytes, writes TEXT, and so on, over one connection
//
// The first two print how many seconds it took, and end with 1 at an answer other than 200.
#include <arpa/inet.h>
#include <fcntl.h>
#include <netinet/in.h>
#include <netinet/tcp.h>
#include <stdio.h>
#include <stdlib.h>
#include <string.h>
#include <sys/socket.h>
#include <time.h>
#include <unistd.h>

static char room[1 << 20];
static size_t held;

static int fail(const char *what) {
    perror(what);
    exit(1);
}

static struct sockaddr_in address(const char *port) {
    struct sockaddr_in at = {.sin_family = AF_INET, .sin_port = htons(atoi(port))};
    at.sin_addr.s_addr = htonl(INADDR_LOOPBACK);
    return at;
}

static int without_delay(int fd) {
    int yes = 1;
    setsockopt(fd, IPPROTO_TCP, TCP_NODELAY, &yes, sizeof yes);
    return fd;
}

static int client(const char *port) {
    struct sockaddr_in at = address(port);
    int fd = socket(AF_INET, SOCK_STREAM, 0);
    if (connect(fd, (void *)&at, sizeof at)) fail("connect");
    return without_delay(fd);
}

static int server(const char *port) {
    struct sockaddr_in at = address(port);
    int fd = socket(AF_INET, SOCK_STREAM, 0), yes = 1;
    setsockopt(fd, SOL_SOCKET, SO_REUSEADDR, &yes, sizeof yes);
    if (bind(fd, (void *)&at, sizeof at) || listen(fd, 8)) fail("bind");
    return without_delay(accept(fd, NULL, NULL));
}

static void send_all(int fd, const char *text, size_t len) {
    while (len > 0) {
        ssize_t sent = write(fd, text, len);
        if (sent <= 0) fail("write");
        text += sent;
        len -= sent;
    }
}

static void read_more(int fd) {
    ssize_t count = read(fd, room + held, sizeof room - 1 - held);
    if (count <= 0) fail("read");
    held += count;
    room[held] = 0;
}

static void drop_front(size_t len) {
    memmove(room, room + len, held - len + 1);
    held -= len;
}

// Takes one answer: its head, and as many bytes as that says.
static void take_answer(int fd) {
    char *end;
    while (!(end = strstr(room, "\r\n\r\n"))) read_more(fd);
    size_t whole = end + 4 - room + strtoul(strstr(room, "content-length: ") + 16, NULL, 10);
    while (held < whole) read_more(fd);
    if (strncmp(room, "HTTP/1.1 200 ", 13)) {
        fprintf(stderr, "%.*s\n", (int)whole, room);
        exit(1);
    }
    drop_front(whole);
}

static size_t file_text(const char *path, char **text) {
    int fd = open(path, O_RDONLY);
    off_t len = lseek(fd, 0, SEEK_END);
    *text = malloc(len + 1);
    if (fd < 0 || pread(fd, *text, len, 0) != len) fail(path);
    return len;
}

static void send_ahead(int fd, const char *text, size_t len, long calls) {
    if (fork()) return;
    while (calls-- > 0) send_all(fd, text, len);
    _exit(0);
}

static double seconds(void) {
    struct timespec now;
    clock_gettime(CLOCK_MONOTONIC, &now);
    return now.tv_sec + now.tv_nsec / 1e9;
}

int main(int count, char **words) {
    if (count < 5) return 2;
    if (!strcmp(words[1], "loop")) {
        size_t len = atol(words[3]);
        int fd = server(words[2]);
        for (;;) {
            while (held < len) read_more(fd);
            drop_front(len);
            send_all(fd, words[4], strlen(words[4]));
        }
    }
    char *text;
    size_t len = file_text(words[3], &text);
    long calls = atol(words[4]);
    int ahead = !strcmp(words[1], "ahead"), fd = client(words[2]);
    double begun = seconds();
    if (ahead) send_ahead(fd, text, len, calls);
    for (long call = 0; call < calls; call++) {
        if (!ahead) send_all(fd, text, len);
        take_answer(fd);
    }
    printf("%.6f\n", seconds() - begun);
    return 0;
}
