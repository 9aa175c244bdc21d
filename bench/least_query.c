/* The least that queries over generated emails can take: plain loops over records that lie in memory as those of `measure_queries N` do,
   each text in an allocation of its own, in the order in which the emails came. Prints nanoseconds an email: processor time, the least
   of 25 runs.

       cc -O3 -march=x86-64-v2 -o least_query bench/least_query.c && ./least_query N
*/
#include <emmintrin.h>
#include <stdint.h>
#include <stdio.h>
#include <stdlib.h>
#include <string.h>
#include <strings.h>
#include <time.h>

typedef struct { char *bytes; uint64_t capacity, len; } Text;
typedef struct { Text *items; uint64_t capacity, len; } Texts;
typedef struct { uint64_t *items; uint64_t capacity, len; } Numbers;
typedef struct {
    uint64_t number, thread, blob;
    Numbers mailboxes;
    Texts keywords;
    uint64_t size;
    int64_t received;
    Texts links;
    Text subject, from, to;
    uint64_t sent[2], attachment;
} Email;

static const char *WORDS[8] = {"meeting", "invoice", "summer", "release", "garden", "report", "window", "yellow"};
static const char NEEDLE[] = "person 97";
enum { NEEDLE_BYTES = sizeof NEEDLE - 1, HEADER_BYTES = 192 };

static uint64_t count;
static Email *emails;
static Text *messages;
static uint64_t *found;
static char *row;      /* the authors, one after another */
static uint64_t *ends; /* where each begins, and the last one ends */

static Text text(const char *from, size_t len) {
    Text made = {malloc(len), len, len};
    memcpy(made.bytes, from, len);
    return made;
}

static Text written(const char *form, uint64_t number) {
    char line[64];
    return text(line, (size_t)sprintf(line, form, number));
}

static Text message(uint64_t n) {
    char body[1100], all[2048];
    size_t len = 0;
    if (n % 50 == 0) len += (size_t)sprintf(body, "zebra ");
    for (uint64_t next = n; len < 1000; next++) len += (size_t)sprintf(body + len, "%s ", WORDS[next % 8]);
    return text(all, (size_t)sprintf(all, "From: Person %lu <p%lu@mail.example>\r\nTo: list@mail.example\r\nSubject: Topic %lu\r\n"
        "Message-ID: <%lu@mail.example>\r\nContent-Type: text/plain; charset=utf-8\r\n\r\n%s", n % 977, n, n % 1009, n, body));
}

static void put_email(Email *email, uint64_t n) {
    memset(email, 0, sizeof *email);
    email->number = email->blob = n;
    email->mailboxes.items = malloc(4 * sizeof(uint64_t));
    if (n % 16 == 0 || n % 3 == 0) email->keywords.items = malloc(2 * sizeof(Text));
    if (n % 16 == 0) email->keywords.items[email->keywords.len++] = text("$flagged", 8);
    if (n % 3 == 0) email->keywords.items[email->keywords.len++] = text("$seen", 5);
    email->subject = written("Topic %lu", n % 1009);
    email->from = written("Person %lu", n % 977);
    email->to = text("list@mail.example", 17);
}

/* By the first and the last byte of the needle first, which few places have. */
static int has_author(const char *text, uint64_t len) {
    for (uint64_t i = 0; i + NEEDLE_BYTES <= len; i++)
        if ((text[i] | 32) == 'p' && text[i + NEEDLE_BYTES - 1] == '7' && strncasecmp(text + i, NEEDLE, NEEDLE_BYTES) == 0) return 1;
    return 0;
}

static uint64_t byte_of_each_message(void) {
    uint64_t sum = 0;
    for (uint64_t i = 0; i < count; i++) sum += (uint64_t)messages[emails[i].blob - 1].bytes[0];
    return sum;
}

static uint64_t lines_of_each_header(void) {
    uint64_t sum = 0;
    for (uint64_t i = 0; i < count; i++)
        for (int at = 0; at < HEADER_BYTES; at += 64) sum += (uint64_t)messages[emails[i].blob - 1].bytes[at];
    return sum;
}

/* Each line of the header is found, and those of From are looked through. */
static int from_has(const char *bytes, uint64_t len) {
    const __m128i feed = _mm_set1_epi8('\n');
    const char *line = bytes;
    for (const char *at = bytes; at + 16 <= bytes + len; at += 16)
        for (unsigned marks = (unsigned)_mm_movemask_epi8(_mm_cmpeq_epi8(_mm_loadu_si128((const __m128i *)at), feed)); marks; marks &= marks - 1) {
            const char *end = at + __builtin_ctz(marks);
            if ((*line | 32) == 'f' && strncasecmp(line, "From:", 5) == 0 && has_author(line + 5, (uint64_t)(end - line) - 5)) return 1;
            line = end + 1;
            if (*line == '\r') return 0;
        }
    return 0;
}

static uint64_t from(void) {
    uint64_t n = 0;
    for (uint64_t i = 0; i < count; i++) {
        Text *message = &messages[emails[i].blob - 1];
        if (from_has(message->bytes, message->len)) found[n++] = emails[i].number;
    }
    return n;
}

static uint64_t author(void) {
    uint64_t n = 0;
    for (uint64_t i = 0; i < count; i++)
        if (has_author(emails[i].from.bytes, emails[i].from.len)) found[n++] = emails[i].number;
    return n;
}

static uint64_t authors_in_a_row(void) {
    uint64_t n = 0;
    for (uint64_t i = 0; i < count; i++)
        if (has_author(row + ends[i], ends[i + 1] - ends[i])) found[n++] = i + 1;
    return n;
}

static uint64_t keyword_total(void) {
    uint64_t n = 0;
    for (uint64_t i = 0; i < count; i++)
        for (uint64_t k = 0; k < emails[i].keywords.len; k++) {
            Text *own = &emails[i].keywords.items[k];
            if (own->len == 8 && memcmp(own->bytes, "$flagged", 8) == 0) found[n++] = emails[i].number;
        }
    return n;
}

static double nanos(void) {
    struct timespec now;
    clock_gettime(CLOCK_THREAD_CPUTIME_ID, &now);
    return now.tv_sec * 1e9 + now.tv_nsec;
}

static void measure(const char *name, uint64_t (*loop)(void)) {
    double least = 1e18;
    uint64_t gave = 0;
    for (int run = 0; run < 25; run++) {
        double begin = nanos();
        gave = loop();
        double took = nanos() - begin;
        if (took < least) least = took;
    }
    printf("%-22s %8.1f ns an email (%lu)\n", name, least / (double)count, gave);
}

int main(int argc, char **argv) {
    count = argc == 2 ? strtoull(argv[1], NULL, 10) : 0;
    if (count == 0) return fprintf(stderr, "usage: least_query N\n"), 2;
    emails = malloc(count * sizeof *emails);
    messages = malloc(count * sizeof *messages);
    found = malloc(count * sizeof *found);
    row = malloc(count * 16);
    ends = calloc(count + 1, sizeof *ends);
    for (uint64_t i = 0; i < count; i++) put_email(&emails[i], i + 1);
    for (uint64_t i = 0; i < count; i++) {
        messages[i] = message(i + 1);
        memcpy(row + ends[i], emails[i].from.bytes, emails[i].from.len);
        ends[i + 1] = ends[i] + emails[i].from.len;
    }
    measure("byte of each message", byte_of_each_message);
    measure("lines of each header", lines_of_each_header);
    measure("from", from);
    measure("author", author);
    measure("authors in a row", authors_in_a_row);
    measure("keyword, total", keyword_total);
    return 0;
}
