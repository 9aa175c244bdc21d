/* A client of HTTP/1.1 that asks over connections which it keeps, one request at a time on each, and says how long the answers took.

       http_load PORT CONNECTIONS REQUESTS FILE

   FILE has requests, each a line with its length in decimal, and then its bytes. They are dealt out to the connections in order, the same
   number to each; a connection sends its own in turn. REQUESTS is how many are sent in all. A connection that the server closes is opened
   again, as part of the next request. Prints the nanoseconds of the whole, of the middle request and of the one at 99 of 100, and the least
   and the greatest length of a body. Ends with status 1 if an answer has another status than 200 or 201, or no Content-Length. */
#include <arpa/inet.h>
#include <errno.h>
#include <netinet/in.h>
#include <netinet/tcp.h>
#include <poll.h>
#include <stdio.h>
#include <stdlib.h>
#include <string.h>
#include <strings.h>
#include <sys/socket.h>
#include <time.h>
#include <unistd.h>

enum { MOST_REQUESTS = 4096, MOST_CONNECTIONS = 64, MOST_ANSWER = 1 << 24 };

struct request {
    char *bytes;
    size_t length;
};

struct connection {
    int socket;
    long left;            /* requests that are not yet sent */
    int next, first, count; /* the request that is sent next, and those of this connection */
    const struct request *asked; /* the request that is being answered, or none */
    size_t sent, held, wanted;   /* bytes sent, bytes that came, bytes of the whole answer once its head is there */
    int closes;
    long long begin;
    char *answer;
};

static struct request requests[MOST_REQUESTS];
static struct connection connections[MOST_CONNECTIONS];
static int port;
static long long *took;
static long answered;
static size_t least = MOST_ANSWER, most;

static void fail(const char *what)
{
    fprintf(stderr, "http_load: %s: %s\n", what, errno ? strerror(errno) : "");
    exit(1);
}

static long long now(void)
{
    struct timespec time;
    clock_gettime(CLOCK_MONOTONIC, &time);
    return time.tv_sec * 1000000000LL + time.tv_nsec;
}

static int read_requests(const char *path)
{
    int count = 0;
    size_t length;
    FILE *file = fopen(path, "rb");
    if (!file)
        fail(path);
    while (count < MOST_REQUESTS && fscanf(file, "%zu", &length) == 1) {
        fgetc(file);
        requests[count].bytes = malloc(length);
        requests[count].length = length;
        if (fread(requests[count].bytes, 1, length, file) != length)
            fail("a request is cut off");
        count++;
    }
    fclose(file);
    return count;
}

static void open_connection(struct connection *one)
{
    struct sockaddr_in to = {.sin_family = AF_INET, .sin_port = htons(port), .sin_addr = {htonl(INADDR_LOOPBACK)}};
    int yes = 1;
    one->socket = socket(AF_INET, SOCK_STREAM, 0);
    if (one->socket < 0 || connect(one->socket, (struct sockaddr *)&to, sizeof to) < 0)
        fail("connect");
    setsockopt(one->socket, IPPROTO_TCP, TCP_NODELAY, &yes, sizeof yes);
    one->closes = 0;
}

/* Sends what the socket takes. */
static void send_more(struct connection *one)
{
    ssize_t sent = send(one->socket, one->asked->bytes + one->sent, one->asked->length - one->sent, MSG_DONTWAIT | MSG_NOSIGNAL);
    if (sent < 0 && errno != EAGAIN)
        fail("send");
    one->sent += sent > 0 ? sent : 0;
}

/* Begins the next request, on a new connection where there is none. */
static void ask(struct connection *one)
{
    one->begin = now();
    if (one->socket < 0)
        open_connection(one);
    one->asked = &requests[one->first + one->next];
    one->next = (one->next + 1) % one->count;
    one->left--;
    one->sent = one->held = one->wanted = 0;
    send_more(one);
}

/* Looks for the end of the head, and finds out how long the answer is and whether the server closes the connection. */
static void read_head(struct connection *one)
{
    char *end = one->held >= 4 ? memmem(one->answer, one->held, "\r\n\r\n", 4) : NULL;
    if (!end)
        return;
    *end = 0;
    int status = atoi(one->answer + 9);
    char *length = strcasestr(one->answer, "\r\nContent-Length:");
    errno = 0;
    if (status != 200 && status != 201)
        fail(one->answer);
    if (!length)
        fail("no Content-Length");
    size_t body = strtoul(length + 17, NULL, 10);
    one->closes = strcasestr(one->answer, "\r\nConnection: close") != NULL;
    one->wanted = end - one->answer + 4 + body;
    if (one->wanted > MOST_ANSWER)
        fail("an answer is too long");
    least = body < least ? body : least;
    most = body > most ? body : most;
}

static void end_answer(struct connection *one)
{
    took[answered++] = now() - one->begin;
    one->asked = NULL;
    if (one->closes || !one->left) {
        close(one->socket);
        one->socket = -1;
    }
    if (one->left)
        ask(one);
}

static void receive(struct connection *one)
{
    ssize_t came = recv(one->socket, one->answer + one->held, MOST_ANSWER - one->held, MSG_DONTWAIT);
    if (came == 0) {
        errno = 0;
        fail("the server closed a connection");
    }
    if (came < 0 && errno != EAGAIN)
        fail("recv");
    one->held += came > 0 ? came : 0;
    if (!one->wanted)
        read_head(one);
    if (one->wanted && one->held >= one->wanted)
        end_answer(one);
}

static int compare(const void *a, const void *b)
{
    long long x = *(const long long *)a, y = *(const long long *)b;
    return (x > y) - (x < y);
}

int main(int argc, char **argv)
{
    if (argc != 5)
        fail("PORT CONNECTIONS REQUESTS FILE");
    port = atoi(argv[1]);
    int lines = atoi(argv[2]);
    long all = atol(argv[3]);
    int count = read_requests(argv[4]);
    if (lines < 1 || lines > MOST_CONNECTIONS || all < lines || count < lines || count % lines)
        fail("other numbers of connections or requests");
    took = malloc(all * sizeof *took);
    long long begin = now();
    for (int n = 0; n < lines; n++) {
        struct connection *one = &connections[n];
        one->answer = malloc(MOST_ANSWER + 1);
        one->count = count / lines;
        one->first = n * one->count;
        one->left = all / lines + (n < all % lines);
        one->socket = -1;
        ask(one);
    }
    while (answered < all) {
        struct pollfd waits[MOST_CONNECTIONS];
        for (int n = 0; n < lines; n++) {
            struct connection *one = &connections[n];
            waits[n].fd = one->asked ? one->socket : -1;
            waits[n].events = POLLIN | (one->asked && one->sent < one->asked->length ? POLLOUT : 0);
        }
        if (poll(waits, lines, 60000) <= 0)
            fail("no answer for a minute");
        for (int n = 0; n < lines; n++) {
            if (waits[n].fd >= 0 && waits[n].revents & POLLOUT)
                send_more(&connections[n]);
            if (waits[n].fd >= 0 && waits[n].revents & (POLLIN | POLLHUP | POLLERR))
                receive(&connections[n]);
        }
    }
    long long whole = now() - begin;
    qsort(took, all, sizeof *took, compare);
    printf("%lld %lld %lld %zu %zu\n", whole, took[all / 2], took[all * 99 / 100], least, most);
    return 0;
}
