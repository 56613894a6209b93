/* What crates/edges must print, found by a plain search of the whole text for each term.
   It shares no code with the crates: it is the oracle of their tests. */
#include <stdio.h>
#include <string.h>

#include "matches.h"

enum { MOST = 16384, TERMS = 16, PAGES = 256 };

static unsigned char text[MOST];
static int text_length;
static int page_start[PAGES];
static int pages;

struct term {
    int number, limit, length;
    unsigned char bytes[200];
};

static int occurs(const struct term *t, int start)
{
    if (start + t->length > text_length)
        return 0;
    for (int i = 0; i < t->length; i++) {
        if (!matches(i, t->limit, t->bytes[i], text[start + i]))
            return 0;
    }
    return 1;
}

static void make_text(int n)
{
    unsigned seed = 1;
    text_length = n;
    for (int i = 0; i < n; i++) {
        seed = seed * 1103515245u + 12345u;
        text[i] = (unsigned char)"abAB \n"[(seed >> 16) % 6];
    }
}

/* 0, or the number of the refusal */
static int page(int at)
{
    if (at >= text_length)
        return 7;
    if (at <= page_start[pages - 1])
        return 11;
    if (pages == PAGES)
        return 12;
    page_start[pages++] = at;
    return 0;
}

static void page_all(void)
{
    pages = 1;
    page_start[0] = 0;
    for (int i = 1; i <= 300; i++)
        page(i * 60);
}

static struct term term(int number, int limit, const char *bytes, int length)
{
    struct term t = { number, limit, length, { 0 } };
    memcpy(t.bytes, bytes, (size_t)length);
    return t;
}

static void play(int n, int step)
{
    char end[3] = { 'z', 'z', 'z' }, many_a[64], many_b[64];
    printf("galley of %d bytes\n", n);
    make_text(n);
    page_all();
    if (n >= 3)
        memcpy(end, text + n - 3, 3);
    memset(many_a, 'a', 64);
    memset(many_b, 'b', 64);
    struct term terms[TERMS] = {
        term(0, 0, "a", 1), term(1, 0, "ab", 2), term(2, 1, "ab", 2), term(3, 1, "bB", 2),
        term(4, 2, "aba", 3), term(5, 0, " ", 1), term(6, 1, "\na", 2), term(7, 2, " \n ", 3),
        term(8, 0, end, 3), term(9, 2, end, 3), term(10, 0, many_a, 64), term(11, 63, many_b, 64),
        term(12, 3, "AbaB", 4), term(13, 0, "zz", 2), term(14, 1, "BB", 2), term(15, 4, "a b a", 5),
    };
    for (int i = 0; i <= TERMS; i++)
        printf("enter %d: %d\n", i, i < TERMS ? 0 : 1);
    int owed = TERMS * ((n + 63) / 64), done = step < owed ? step : owed;
    printf("owed %d\ndone %d left %d\n", owed, done, owed - done);
    printf("done %d left 0\n", owed - done);
    for (int i = 0; i < TERMS; i++) {
        unsigned count = 0, sum = 0;
        for (int s = 0; s < n; s++) {
            if (!occurs(&terms[i], s))
                continue;
            int p = pages;
            while (page_start[p - 1] > s)
                p--;
            int variant = memcmp(text + s, terms[i].bytes, (size_t)terms[i].length) != 0;
            int place = s - page_start[p - 1];
            if (n < 100)
                printf("%d: %d %d %d %d\n", i, s, p, place, variant);
            sum = (((sum * 31 + (unsigned)s) * 31 + (unsigned)p) * 31 + (unsigned)place) * 31 + (unsigned)variant;
            count++;
        }
        printf("%d: %u locators, sum %u\n", i, count, sum);
    }
}

/* The sheet's lines one after the other, into a book of 70 bytes: two units for each term that stands. */
static void sheet(const char *bytes)
{
    int length = (int)strlen(bytes), at = 0, line = 1, owed = 0, stands[TERMS] = { 0 };
    for (; at < length; line++) {
        int end = at;
        while (end < length && bytes[end] != '\n')
            end++;
        if (end > at) {
            int value[2], p = at;
            for (int f = 0; f < 2; f++) {
                int q = p, digits = 1;
                value[f] = 0;
                while (q < end && bytes[q] != ' ') {
                    digits = digits && bytes[q] >= '0' && bytes[q] <= '9';
                    value[f] = value[f] * 10 + (bytes[q] - '0');
                    q++;
                }
                if (!digits || q == p || q - p > 3) {
                    printf("sheet line %d byte %d refused 16, %d units owed\n", line, p, owed);
                    return;
                }
                if (q == end) {
                    printf("sheet line %d byte %d refused 17, %d units owed\n", line, end, owed);
                    return;
                }
                p = q + 1;
            }
            int m = end - p;
            int refused = value[0] > 15 ? 1 : m < 1 || m > 64 ? 2 : value[1] >= m ? 3 : stands[value[0]] ? 4 : 0;
            if (refused) {
                printf("indexer line %d byte %d refused %d, %d units owed\n", line, at, refused, owed);
                return;
            }
            stands[value[0]] = 1;
            owed += 2;
        }
        at = end + 1;
    }
    printf("accepted, %d units owed\n", owed);
}

int main(void)
{
    static const char *sheets[] = {
        "", "\n\n", "3 0 cat", "3 0 cat\n\n015 001 a b\r\n", "3 0 cat\nb 1 cat", "3", "3 ", "3 0", "3 0\n4 0 a", "\n 3 0 cat",
        "0003 0 cat", "3 -1 cat", "3 0 cat\n4 1x cat", "16 0 cat", "999 0 cat\n3", "3 0 ", "1 0 a\n3 0 \n4 0 b", "2 0 a\n3 3 cat",
        "3 0 cat\n3 0 dog", "3 0 aaaaaaaaaaaaaaaaaaaaaaaaaaaaaaaaaaaaaaaaaaaaaaaaaaaaaaaaaaaaaaaa",
        "3 0 aaaaaaaaaaaaaaaaaaaaaaaaaaaaaaaaaaaaaaaaaaaaaaaaaaaaaaaaaaaaaaaaa",
    };
    play(0, 1);
    play(1, 1);
    play(63, 3);
    play(64, 15);
    play(65, 17);
    play(16384, 1000);
    make_text(16384);
    page_all();
    printf("page 257: %d\n", page(16383));
    printf("page 255: %d\n", page(255 * 60));
    printf("page 273: %d\n", page(16384));
    for (unsigned i = 0; i < sizeof sheets / sizeof *sheets; i++)
        sheet(sheets[i]);
    return 0;
}
