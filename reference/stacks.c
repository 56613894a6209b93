/* What crates/stacks must print: each galley as a plain list of bytes, the six-bit one by its bits. Layers are told by two
   flags: whether the text is folded, and what the bottom holds. It shares no code with the crates: it is the oracle of
   their tests. */
#include <limits.h>
#include <stdint.h>
#include <stdio.h>
#include <string.h>

#include "fold.h"

enum { MOST = 16384, LONGEST = 16385 };

static unsigned char buffer[LONGEST];
static unsigned char text[MOST];
static int len, n, six, folded;

static void make_buffer(int l)
{
    uint32_t seed = 7;
    len = l;
    for (int i = 0; i < l; i++) {
        seed = seed * 1103515245u + 12345u;
        buffer[i] = (unsigned char)(seed >> 16);
    }
}

static uint32_t mixed(uint32_t sum, int b)
{
    return sum * 31u + (uint32_t)b;
}

static int bit_at(int i)
{
    return buffer[i / 8] >> (7 - i % 8) & 1;
}

static int bottom_show(int b)
{
    if (!six || (b >= 32 && b <= 95))
        return b;
    return b >= 97 && b <= 122 ? b - 32 : 32;
}

static int show(int b)
{
    return folded ? fold(bottom_show(b)) : bottom_show(b);
}

static void bottom_put(int at, int b)
{
    if (!six) {
        buffer[at] = (unsigned char)b;
        return;
    }
    int code = bottom_show(b) - 32;
    for (int k = 0; k < 6; k++) {
        int i = 6 * at + k, bit = 7 - i % 8;
        buffer[i / 8] = (unsigned char)((buffer[i / 8] & ~(1 << bit)) | ((code >> (5 - k) & 1) << bit));
    }
}

static void open_galley(int l, int is_six, int is_folded)
{
    make_buffer(l);
    six = is_six;
    folded = is_folded;
    n = six ? l / 3 * 4 : l;
    if (n > MOST)
        n = MOST;
    for (int p = 0; p < n; p++) {
        int b = buffer[p];
        if (six) {
            b = 0;
            for (int k = 0; k < 6; k++)
                b = 2 * b + bit_at(6 * p + k);
            b += 32;
        }
        text[p] = (unsigned char)(folded ? fold(b) : b);
    }
}

static int fetch(unsigned long at, unsigned long l)
{
    return l > (unsigned long)n || at > (unsigned long)n - l ? 7 : 0;
}

static int put(unsigned long at, int b)
{
    if (at >= (unsigned long)n)
        return 7;
    text[at] = (unsigned char)show(b);
    bottom_put((int)at, b);
    return 0;
}

static uint32_t sum_text(void)
{
    uint32_t sum = 0;
    for (int p = 0; p < n; p++)
        sum = mixed(sum, text[p]);
    return sum;
}

static void back(void)
{
    uint32_t sum = 0;
    for (int i = 0; i < len; i++)
        sum = mixed(sum, buffer[i]);
    printf("  back: %d %u\n", len, sum);
}

/* one after the other, which places hold a pasted byte: of at most 32, full ones are let go before one more */
static int pasted[2][MOST], held[2];

static void paste(int layer, int at)
{
    if (pasted[layer][at])
        return;
    if (held[layer] == 32) {
        held[layer] = 0;
        for (int p = 0; p < MOST; p++)
            if (pasted[layer][p]) {
                pasted[layer][p] = 0;
                if (layer == 0)
                    paste(1, p);
            }
    }
    pasted[layer][at] = 1;
    held[layer]++;
}

static void play(const char *name, int l, int is_six, int is_folded)
{
    open_galley(l, is_six, is_folded);
    memset(pasted, 0, sizeof pasted);
    held[0] = held[1] = 0;
    uint32_t before = sum_text(), read = 0;
    for (int b = 0; b < 256; b++) {
        int at = b * 61 % (n > 0 ? n : 1);
        int answer = put((unsigned long)at, b);
        if (answer == 0)
            paste(0, at);
        read = mixed(read, answer);
        read = mixed(read, fetch((unsigned long)at, 1));
        read = mixed(read, answer == 0 ? text[at] : 0);
        read = mixed(read, show(b));
    }
    printf("%s: %d %u %u %u\n", name, n, before, read, sum_text());
    unsigned long size = (unsigned long)n, last = n > 0 ? size - 1 : 0;
    printf("  ends: %d %d %d %d", fetch(size, 0), fetch(last, 1), fetch(size, 1), fetch(last, 2));
    printf(" %d %d", fetch(n > 127 ? size - 127 : 0, 127), fetch(n > 126 ? size - 126 : 0, 127));
    printf(" %d %d 7 7\n", fetch(ULONG_MAX, 0), fetch(ULONG_MAX, 1));
}

int main(void)
{
    static const int lengths[] = {0, 1, 2, 3, 4, 5, 12287, 12288, 12289, 16385};
    for (unsigned i = 0; i < sizeof lengths / sizeof *lengths; i++) {
        int l = lengths[i];
        printf("buffer of %d bytes\n", l);
        play("byte", l, 0, 0);
        back();
        play("six-bit", l, 1, 0);
        back();
        play("folded six-bit", l, 1, 1);
        back();
        play("paste-up byte", l, 0, 0);
        printf("  held: %d\n", held[0]);
        back();
        play("paste-up paste-up byte", l, 0, 0);
        printf("  held: %d", held[0]);
        for (int p = 0; p < MOST; p++) /* what comes back from below the upper layer gets its bytes first */
            if (pasted[0][p])
                paste(1, p);
        printf(" %d\n", held[1]);
        back();
        play("folded paste-up six-bit", l, 1, 1);
        back();
        play("paste-up folded byte", l, 0, 1);
        back();
    }
    open_galley(100, 0, 0);
    memset(pasted, 0, sizeof pasted);
    held[0] = held[1] = 0;
    printf("held:");
    for (int at = 0; at < 40; at++) {
        int answer = put((unsigned long)at * 2, '*');
        int again = put((unsigned long)at * 2, '+');
        paste(0, at * 2);
        printf(" %d%d%d", answer, again, held[0]);
    }
    printf(", spilled 0, text %u %u\n", sum_text(), sum_text());
    back();
    /* 'CAT ' in six bits is 8E 1D 00 by the rule; the byte after the group is as it was */
    printf("put 'cat' and a tab: 0\npacked: %d %d %d %d\n", 0x8E, 0x1D, 0x00, 0xFF);
    printf("put 'KANT': 0\nfetch: 0\nfolded: %d %d %d %d\n", 'k', 'a', 'n', 't');
    return 0;
}
