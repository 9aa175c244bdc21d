/* The least that a query by author can take: plain C over the emails of `measure_queries N`, in memory as bench/least_query.c lays them. The Text
   form of each message's From field is kept in lower case, one text after another, and {"from": needle} is answered by one search over all of
   them. The search is that of the kit's `memchr` in SSE2: two rare bytes of the needle, 64 places at a time, then its first and last byte, then
   the whole needle. Prints nanoseconds an email (processor time, the least of RUNS runs), over N / 5 and over N emails, and how many times as long
   the second takes.

       cc -O3 -march=x86-64-v2 -o search_texts bench/search_texts.c && ./search_texts 100000
*/
#include <emmintrin.h>
#include <stdint.h>
#include <stdio.h>
#include <stdlib.h>
#include <string.h>
#include <strings.h>
#include <time.h>

typedef struct { char *bytes; uint64_t capacity, len; } Text;
typedef struct { Text *items; uint64_t capacity, len; } Texts;
typedef struct { uint64_t *items; uint64_t capacity, len; } Numbers;
typedef struct {
    uint64_t number, thread, blob;
    Numbers mailboxes;
    Texts keywords;
    uint64_t size;
    int64_t received;
    Texts links;
    Text subject, from, to;
    uint64_t sent[2], attachment;
} Email;
typedef struct { uint64_t email, blob; } EmailBlob; /* the blob of each email, in number order */
typedef struct { const uint8_t *needle; size_t len, one, two; } Finder;

enum { RUNS = 15, HEADER_BYTES = 192, NOT = 0, HAS = 1, OPEN = 2 };
static const size_t NONE = (size_t)-1;
static const char *WORDS[8] = {"meeting", "invoice", "summer", "release", "garden", "report", "window", "yellow"};

/* How common a byte is, by the kit's `memchr`; of bytes from 128 on no needle here has one. */
static const uint8_t RANK[128] = {
    55, 52, 51, 50, 49, 48, 47, 46, 45, 103, 242, 66, 67, 229, 44, 43, 42, 41, 40, 39, 38, 37, 36, 35, 34, 33, 56, 32, 31, 30, 29, 28,
    255, 148, 164, 149, 136, 160, 155, 173, 221, 222, 134, 122, 232, 202, 215, 224, 208, 220, 204, 187, 183, 179, 177, 168, 178, 200, 226, 195,
    154, 184, 174, 126, 120, 191, 157, 194, 170, 189, 162, 161, 150, 193, 142, 137, 171, 176, 185, 167, 186, 112, 175, 192, 188, 156, 140, 143,
    123, 133, 128, 147, 138, 146, 114, 223, 151, 249, 216, 238, 236, 253, 227, 218, 230, 247, 135, 180, 241, 233, 246, 244, 231, 139, 245, 243,
    251, 235, 201, 196, 240, 214, 152, 182, 205, 181, 127, 27};

static uint64_t count; /* how many emails the queries are over */
static Email *emails;
static Text *messages;
static uint64_t *found;
static uint8_t *bytes; /* the texts in lower case, one after another */
static uint64_t *ends; /* where each of them ends, by the number of its blob less 1 */
static uint8_t *blank; /* what is known of each before a search: NOT, or OPEN if its text is not kept */
static uint8_t *marks; /* what is known after it */
static EmailBlob *pairs;
static Finder finder;

static Text text(const char *from, size_t len) {
    Text made = {malloc(len), len, len};
    memcpy(made.bytes, from, len);
    return made;
}

static Text written(const char *form, uint64_t number) {
    char line[64];
    return text(line, (size_t)sprintf(line, form, number));
}

static Text message(uint64_t n) {
    char body[1100], all[2048];
    size_t len = 0;
    if (n % 50 == 0) len += (size_t)sprintf(body, "zebra ");
    for (uint64_t next = n; len < 1000; next++) len += (size_t)sprintf(body + len, "%s ", WORDS[next % 8]);
    return text(all, (size_t)sprintf(all, "From: Person %lu <p%lu@mail.example>\r\nTo: list@mail.example\r\nSubject: Topic %lu\r\n"
        "Message-ID: <%lu@mail.example>\r\nContent-Type: text/plain; charset=utf-8\r\n\r\n%s", n % 977, n, n % 1009, n, body));
}

static void put_email(Email *email, uint64_t n) {
    memset(email, 0, sizeof *email);
    email->number = email->blob = n;
    email->received = 1600000000 + (int64_t)(n * 7919 % 1000003 * 60);
    email->mailboxes.items = malloc(4 * sizeof(uint64_t));
    if (n % 16 == 0 || n % 3 == 0) email->keywords.items = malloc(2 * sizeof(Text));
    if (n % 16 == 0) email->keywords.items[email->keywords.len++] = text("$flagged", 8);
    if (n % 3 == 0) email->keywords.items[email->keywords.len++] = text("$seen", 5);
    email->subject = written("Topic %lu", n % 1009);
    email->from = written("Person %lu", n % 977);
    email->to = text("list@mail.example", 17);
}

/* The two rarest bytes of a needle. */
static Finder find_pair(const char *needle) {
    Finder f = {(const uint8_t *)needle, strlen(needle), 0, 1};
    if (RANK[f.needle[1]] < RANK[f.needle[0]]) f.one = 1, f.two = 0;
    for (size_t i = 2; i < f.len; i++) {
        uint8_t byte = f.needle[i];
        if (RANK[byte] < RANK[f.needle[f.one]]) f.two = f.one, f.one = i;
        else if (byte != f.needle[f.one] && RANK[byte] < RANK[f.needle[f.two]]) f.two = i;
    }
    return f;
}

static __m128i equal_to(const uint8_t *at, __m128i byte) { return _mm_cmpeq_epi8(_mm_loadu_si128((const __m128i *)at), byte); }

/* The first place at which the needle is, or NONE. */
static size_t find(const Finder *f, const uint8_t *hay, size_t len) {
    if (len < f->len) return NONE;
    size_t to = len + 1 - f->len, i = 0, end = f->len - 1;
    __m128i one = _mm_set1_epi8((char)f->needle[f->one]), two = _mm_set1_epi8((char)f->needle[f->two]);
    __m128i first = _mm_set1_epi8((char)f->needle[0]), last = _mm_set1_epi8((char)f->needle[end]);
    while (64 <= to - i) {
        const uint8_t *at = hay + i;
        __m128i m0 = _mm_and_si128(equal_to(at + f->one, one), equal_to(at + f->two, two));
        __m128i m1 = _mm_and_si128(equal_to(at + 16 + f->one, one), equal_to(at + 16 + f->two, two));
        __m128i m2 = _mm_and_si128(equal_to(at + 32 + f->one, one), equal_to(at + 32 + f->two, two));
        __m128i m3 = _mm_and_si128(equal_to(at + 48 + f->one, one), equal_to(at + 48 + f->two, two));
        if (_mm_movemask_epi8(_mm_or_si128(_mm_or_si128(m0, m1), _mm_or_si128(m2, m3))) != 0) {
            uint64_t left = (uint64_t)(unsigned)_mm_movemask_epi8(_mm_and_si128(m0, _mm_and_si128(equal_to(at, first), equal_to(at + end, last))));
            left |= (uint64_t)(unsigned)_mm_movemask_epi8(_mm_and_si128(m1, _mm_and_si128(equal_to(at + 16, first), equal_to(at + 16 + end, last)))) << 16;
            left |= (uint64_t)(unsigned)_mm_movemask_epi8(_mm_and_si128(m2, _mm_and_si128(equal_to(at + 32, first), equal_to(at + 32 + end, last)))) << 32;
            left |= (uint64_t)(unsigned)_mm_movemask_epi8(_mm_and_si128(m3, _mm_and_si128(equal_to(at + 48, first), equal_to(at + 48 + end, last)))) << 48;
            for (; left; left &= left - 1) {
                size_t k = (size_t)__builtin_ctzll(left);
                if (memcmp(at + k, f->needle, f->len) == 0) return i + k;
            }
        }
        i += 64;
    }
    for (; i < to; i++)
        if (hay[i + f->one] == f->needle[f->one] && memcmp(hay + i, f->needle, f->len) == 0) return i;
    return NONE;
}

/* One search over all texts. What is found past the end of a text is no match, and at most one place is looked at in each text. */
static uint64_t search(void) {
    size_t from = 0, index = 0, total = ends[count - 1], at;
    memcpy(marks, blank, count);
    while ((at = find(&finder, bytes + from, total - from)) != NONE) {
        size_t place = from + at;
        while (ends[index] <= place) index++;
        if (finder.len <= ends[index] - place) marks[index] = HAS;
        from = ends[index++];
    }
    return 0;
}

/* The emails of the blobs that are marked, from the pairs that lie one after another. */
static uint64_t emails_of_marks(void) {
    uint64_t n = 0;
    for (uint64_t i = 0; i < count; i++)
        if (marks[pairs[i].blob - 1] != NOT) found[n++] = pairs[i].email;
    return n;
}

static uint64_t whole(void) { search(); return emails_of_marks(); }

/* The same, but the blob of each email is read in its record. */
static uint64_t by_records(void) {
    uint64_t n = 0;
    search();
    for (uint64_t i = 0; i < count; i++)
        if (marks[emails[i].blob - 1] != NOT) found[n++] = emails[i].number;
    return n;
}

/* The whole, and the time received of each email that was found. */
static uint64_t with_times(void) {
    uint64_t n = whole(), sum = 0;
    for (uint64_t i = 0; i < n; i++) sum += (uint64_t)emails[found[i] - 1].received & 1;
    return n + (sum >> 62);
}

/* A search in each text by itself. */
static uint64_t one_by_one(void) {
    uint64_t n = 0;
    for (uint64_t i = 0, from = 0; i < count; from = ends[i++])
        if (find(&finder, bytes + from, ends[i] - from) != NONE) found[n++] = i + 1;
    return n;
}

static int has_needle(const char *line, uint64_t len) {
    for (uint64_t i = 0; i + finder.len <= len; i++)
        if ((line[i] | 32) == finder.needle[0] && strncasecmp(line + i, (const char *)finder.needle, finder.len) == 0) return 1;
    return 0;
}

/* No text is kept: each line of the header is found, and those of From are looked through. */
static int message_has(const char *start, uint64_t len) {
    const __m128i feed = _mm_set1_epi8('\n');
    const char *line = start;
    for (const char *at = start; at + 16 <= start + len; at += 16)
        for (unsigned left = (unsigned)_mm_movemask_epi8(equal_to((const uint8_t *)at, feed)); left; left &= left - 1) {
            const char *end = at + __builtin_ctz(left);
            if ((*line | 32) == 'f' && strncasecmp(line, "From:", 5) == 0 && has_needle(line + 5, (uint64_t)(end - line) - 5)) return 1;
            line = end + 1;
            if (*line == '\r') return 0;
        }
    return 0;
}

static uint64_t messages_read(void) {
    uint64_t n = 0;
    for (uint64_t i = 0; i < count; i++) {
        Text *message = &messages[emails[i].blob - 1];
        if (message_has(message->bytes, message->len)) found[n++] = emails[i].number;
    }
    return n;
}

/* The whole, and each email that was found is looked at again: its record, and its message. */
static uint64_t read_again(void) {
    uint64_t n = whole(), kept = 0;
    for (uint64_t i = 0; i < n; i++) {
        Text *message = &messages[emails[found[i] - 1].blob - 1];
        if (message_has(message->bytes, message->len)) found[kept++] = found[i];
    }
    return kept;
}

static double nanos(void) {
    struct timespec now;
    clock_gettime(CLOCK_THREAD_CPUTIME_ID, &now);
    return now.tv_sec * 1e9 + now.tv_nsec;
}

static double least(uint64_t (*loop)(void), uint64_t *gave) {
    double took = 1e18;
    for (int run = 0; run < RUNS; run++) {
        double begin = nanos();
        *gave = loop();
        double now = nanos() - begin;
        if (now < took) took = now;
    }
    return took;
}

static void compare(const char *name, uint64_t (*loop)(void), uint64_t all) {
    uint64_t few_found, found_all;
    count = all / 5;
    double few = least(loop, &few_found);
    count = all;
    double many = least(loop, &found_all);
    printf("  %-44s %7.2f ns %9.2f ns  x%5.2f  (%lu, %lu found)\n", name, few / (double)(all / 5), many / (double)all, many / few, few_found, found_all);
}

int main(int argc, char **argv) {
    uint64_t all = argc == 2 ? strtoull(argv[1], NULL, 10) : 0;
    if (all < 5) return fprintf(stderr, "usage: search_texts N\n"), 2;
    emails = malloc(all * sizeof *emails);
    messages = malloc(all * sizeof *messages);
    found = malloc(all * sizeof *found);
    bytes = malloc(all * 48);
    ends = malloc(all * sizeof *ends);
    blank = calloc(all, 1);
    marks = calloc(all, 1);
    pairs = malloc(all * sizeof *pairs);
    for (uint64_t i = 0; i < all; i++) put_email(&emails[i], i + 1);
    uint64_t end = 0;
    for (uint64_t i = 0; i < all; i++) {
        messages[i] = message(i + 1);
        end += (uint64_t)sprintf((char *)bytes + end, "person %lu <p%lu@mail.example>", (i + 1) % 977, i + 1);
        ends[i] = end;
        pairs[i] = (EmailBlob){i + 1, i + 1};
    }
    printf("%lu emails, texts of %lu bytes and %lu of ends, pairs and marks\n", all, end, all * (8 + 16 + 1));
    const char *needles[] = {"nobody", "person 97", "person 1", "person ", "example>person"};
    for (size_t i = 0; i < sizeof needles / sizeof *needles; i++) {
        finder = find_pair(needles[i]);
        printf("\"%s\", by its bytes %zu and %zu%27s over %lu %12s %lu\n", needles[i], finder.one, finder.two, "", all / 5, "over", all);
        compare("the whole: search, then emails of the marks", whole, all);
        compare("the search alone", search, all);
        compare("the emails of the marks alone", emails_of_marks, all);
        compare("search, then the blob in each record", by_records, all);
        compare("the whole, and the times received", with_times, all);
        compare("the whole, and what was found read again", read_again, all);
        compare("a search in each text by itself", one_by_one, all);
        if (i == 1) compare("the header of each message", messages_read, all);
    }
    return 0;
}
