/* When a byte of the text matches byte i of a term: the rule of the plain searches. */
#include "fold.h"

static int matches(int i, int k, int p, int b)
{
    return b == p || (i < k && fold(b) == fold(p));
}
