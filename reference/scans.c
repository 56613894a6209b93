/* What crates/scans must print: the words by a plain search of each start, the tables and states by the rules of the methods
   bit by bit. It shares no code with the crates: it is the oracle of their tests. */
#include <stdint.h>
#include <stdio.h>
#include <string.h>

#include "matches.h"

static uint64_t plain(const unsigned char *term, int m, int k, const unsigned char *stretch, int l)
{
    uint64_t word = 0;
    for (int s = 0; s < 64 && s + m <= l; s++) {
        int i = 0;
        while (i < m && matches(i, k, term[i], stretch[s + i]))
            i++;
        if (i == m)
            word |= (uint64_t)1 << s;
    }
    return word;
}

static unsigned mixed(unsigned i)
{
    return ((i & 0xffff) * 2654435761u) >> 16;
}

static int stretch_byte(int kind, int i, int m)
{
    int b, turn;
    switch (kind) {
    case 0:
        return 'a';
    case 1:
        return "ab"[i % 2];
    case 2:
        return "abAB \t\n\r"[mixed((unsigned)i) % 8];
    case 3:
        return (i * 37 + 11) & 0xff;
    default:
        m = m > 1 ? m : 1;
        b = "the cat and "[i % m % 12];
        turn = i / m % 3;
        if (turn == 1)
            return b == ' ' ? '\t' : b - 'a' + 'A';
        if (turn == 2 && b == ' ')
            return '\n';
        return b;
    }
}

static int term_byte(int kind, int i, int m)
{
    return stretch_byte(kind, kind == 2 ? i + 5 : kind == 3 ? i + 9 : i, m);
}

/* which: 0 Comparer, 1 Shift-Or, 2 two-way Shift-Or, 3 Shift-And */
static void show(int which, const unsigned char *term, int m, int k, const unsigned char *stretch, int l)
{
    int fits = which == 0 || (which == 3 ? m <= 32 : k == 0);
    int refused = m < 1 || m > 64 ? 2 : k >= m ? 3 : !fits ? 6 : l > 127 ? 13 : 0;
    if (refused)
        printf(" r%d", refused);
    else
        printf(" %llu", (unsigned long long)plain(term, m, k, stretch, l));
}

static void line(int kind, int m, int k, int l)
{
    unsigned char term[65], stretch[128];
    for (int i = 0; i < 65; i++)
        term[i] = (unsigned char)term_byte(kind, i, m);
    for (int i = 0; i < 128; i++)
        stretch[i] = (unsigned char)stretch_byte(kind, i, m);
    printf("%d %d %d %d:", kind, m, k, l);
    for (int which = 0; which < 4; which++)
        show(which, term, m, k, stretch, l);
    printf("\n");
}

/* bit i is clear exactly when i is below m and the term's byte i is b */
static uint64_t or_row(const char *term, int m, int b)
{
    uint64_t word = ~(uint64_t)0;
    for (int i = 0; i < m; i++)
        if ((unsigned char)term[i] == b)
            word &= ~((uint64_t)1 << i);
    return word;
}

/* the same from bit 64 - m up, the bits below clear */
static uint64_t two_way_row(const char *term, int m, int b)
{
    return or_row(term, m, b) << (64 - m);
}

static uint32_t and_row(const char *term, int m, int k, int b)
{
    uint32_t word = 0;
    for (int i = 0; i < m; i++)
        if (matches(i, k, (unsigned char)term[i], b))
            word |= (uint32_t)1 << i;
    return word;
}

static uint64_t word_at(const char *term, int m, const char *stretch, int l, int p)
{
    return p < l ? two_way_row(term, m, (unsigned char)stretch[p]) : ~(uint64_t)0 << (64 - m);
}

static void windows(const char *term, int m, const char *stretch, int l)
{
    uint64_t full = ~(uint64_t)0 << (64 - m);
    for (int w = 0; w < 5; w++)
        for (int step = 0; step < 6; step++) {
            int c = (w + 1) * m - 1, taken = c < l && c - m + 1 <= 63 && step < m;
            uint64_t state = 0;
            if (taken)
                state = word_at(term, m, stretch, l, c);
            for (int j = 1; taken && j <= step; j++) {
                if ((state & full) == full)
                    taken = 0;
                else
                    state |= word_at(term, m, stretch, l, c - j) << j | word_at(term, m, stretch, l, c + j) >> j;
            }
            if (taken)
                printf("window %d step %d: %llu\n", w, step, (unsigned long long)state);
            else
                printf("window %d step %d: none\n", w, step);
        }
}

static void inside(const char *term, const char *stretch)
{
    int m = (int)strlen(term), l = (int)strlen(stretch), k = m < 2 ? 0 : 1;
    uint64_t or_state = ~(uint64_t)0;
    uint32_t and_state = 0;
    printf("inside %d\n", m);
    for (const char *b = "abAz \t"; *b; b++) {
        printf("or table %d: %llu\n", *b, (unsigned long long)or_row(term, m, *b));
        printf("two-way table %d: %llu\n", *b, (unsigned long long)two_way_row(term, m, *b));
        if (m <= 32)
            printf("and table %d: %lu\n", *b, (unsigned long)and_row(term, m, k, *b));
        else /* the term before this one is still held: five bytes, limit 1 */
            printf("and table %d: %lu\n", *b, (unsigned long)and_row("abcab", 5, 1, *b));
    }
    for (int n = 0; n < l; n++) {
        printf("or state %d: %llu\n", n, (unsigned long long)or_state);
        printf("and state %d: %lu\n", n, (unsigned long)and_state);
        or_state = or_state << 1 | or_row(term, m, (unsigned char)stretch[n]);
        and_state = (and_state << 1 | 1) & (m <= 32 ? and_row(term, m, k, (unsigned char)stretch[n]) : and_row("abcab", 5, 1, (unsigned char)stretch[n]));
    }
    windows(term, m, stretch, l);
}

int main(void)
{
    static const int lengths[] = { 0, 1, 2, 31, 32, 33, 63, 64, 65 };
    for (int w = 0; w < 5; w++)
        for (int step = 0; step < 6; step++)
            printf("window %d step %d: r14\n", w, step);
    for (int kind = 0; kind < 5; kind++)
        for (int i = 0; i < 9; i++) {
            int m = lengths[i], longest = m > 1 ? m - 1 : 0;
            int limits[] = { 0, 1, longest }, sizes[] = { 0, 1, longest, m, 63, 64, 126, 127, 128 };
            for (int a = 0; a < 3; a++)
                for (int b = 0; b < 9; b++)
                    line(kind, m, limits[a], sizes[b]);
        }
    inside("a", "abcaa");
    inside("ab", "ababaB ab");
    inside("abcab", "xabcabcabxabcabc");
    inside("aaaaaaaaaaaaaaaaaaaaaaaaaaaaaaaaaaaaaaaaaaaaaaaaaaaaaaaaaaaaaaaa", "aaaaaaaaaaaaaaaaaaaaaaaaaaaaaaaaaaaaaaaaaaaaaaaaaaaaaaaaaaaaaaaaaa");
    return 0;
}
