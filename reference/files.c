/* What crates/files must print: the records encoded plainly, byte by byte. It shares no code with the crates: it is the
   oracle of their tests. */
#include <stdint.h>
#include <stdio.h>
#include <string.h>

static unsigned char buffer[256], spare[1024];
static size_t room, at;
static unsigned count;
static int notes[8], next;

static size_t little(unsigned char *to, unsigned long n, size_t bytes)
{
    for (size_t i = 0; i < bytes; i++, n >>= 8)
        to[i] = (unsigned char)(n & 255);
    return bytes;
}

/* a record goes to the buffer or, where that has no room, to the spare one at the same place */
static void record(int kind, const unsigned char *body, size_t l)
{
    int small = at + 4 + l > room;
    unsigned char *to = (small ? spare : buffer) + at;
    notes[next++] = small ? 15 : 0;
    to += little(to, l, 2);
    to += little(to, (unsigned long)kind, 2);
    memcpy(to, body, l);
    at += 4 + l;
}

static void head(unsigned long n, unsigned long owed, unsigned long terms)
{
    unsigned char body[8];
    little(body, n, 4);
    little(body + 4, owed, 2);
    little(body + 6, terms, 2);
    record(1, body, 8);
}

static void term(int number, int limit, const void *bytes, size_t m)
{
    unsigned char body[66];
    if (m < 1 || m > 64) {
        notes[next++] = 2;
        return;
    }
    body[0] = (unsigned char)number;
    body[1] = (unsigned char)limit;
    memcpy(body + 2, bytes, m);
    record(2, body, m + 2);
}

static void locator(unsigned long start, unsigned long page, unsigned long place, int variant)
{
    unsigned char body[7];
    little(body, start, 2);
    little(body + 2, page, 2);
    little(body + 4, place, 2);
    body[6] = (unsigned char)variant;
    record(3, body, 7);
    count++;
}

static void end(void)
{
    unsigned char body[4];
    little(body, count, 4);
    record(4, body, 4);
}

static void begin(size_t l)
{
    memset(buffer, 170, sizeof buffer);
    memset(spare, 85, sizeof spare);
    room = l;
    at = 0;
    count = 0;
    next = 0;
}

static void sample(void)
{
    head(22, 0, 2);
    term(3, 0, "cat", 3);
    locator(4, 1, 4, 0);
    term(5, 1, "cat", 3);
    locator(4, 1, 4, 0);
    locator(8, 1, 8, 1);
    locator(19, 2, 7, 1);
    end();
}

static void extremes(void)
{
    unsigned char values[128];
    for (int i = 0; i < 128; i++)
        values[i] = (unsigned char)(2 * i + 1);
    head(4294967295ul, 65535, 65535);
    locator(65535, 65535, 65535, 255);
    term(255, 255, values, 64);
    term(1, 0, "", 0);
    term(2, 0, values, 65);
    term(0, 0, values + 64, 64);
    locator(65535, 65535, 65535, 255);
    end();
}

static uint32_t sum_of(const unsigned char *bytes, size_t l)
{
    uint32_t sum = 0;
    for (size_t i = 0; i < l; i++)
        sum = sum * 31u + bytes[i];
    return sum;
}

static void tell(const char *name, size_t l)
{
    printf("%s: %lu bytes, refused", name, (unsigned long)at);
    for (int i = 0; i < 8; i++)
        printf(" %d", notes[i]);
    printf(", sums %u %u\n", sum_of(buffer, l), sum_of(spare, sizeof spare));
}

int main(void)
{
    static const size_t rooms[] = {0, 11, 12, 22, 23, 92, 93, 162, 163, 173, 174, 181, 182, 256};
    begin(82);
    sample();
    printf("%lu:", (unsigned long)at);
    for (size_t i = 0; i < at; i++)
        printf(" %d", buffer[i]);
    printf("\n");
    for (size_t l = 0; l < 86; l++) {
        begin(l);
        sample();
        tell("sample", 128);
    }
    for (size_t i = 0; i < sizeof rooms / sizeof *rooms; i++) {
        begin(rooms[i]);
        extremes();
        tell("extremes", 256);
    }
    return 0;
}
