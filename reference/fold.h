/* The fold of a byte: a capital as its small letter, a tab or a line's end as a space. */
static int fold(int b)
{
    if (b >= 'A' && b <= 'Z')
        return b - 'A' + 'a';
    if (b == '\t' || b == '\n' || b == '\r')
        return ' ';
    return b;
}
