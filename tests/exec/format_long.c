// %ld, %lld and %li: 64 bits with a sign.
#include <glib.h>

int main (int argc, char **argv)
{
    gint64 n;
    n = 9223372036854775807;
    g_print ("[%ld] [%lld] [%li]\n", n, n, -n - 1);
    g_print ("[%22ld] [%-22ld] [%022ld]\n", -n, -n, -n);
    g_print ("[%ld]\n", (gint64) 5);
    return 0;
}

// out: [9223372036854775807] [9223372036854775807] [-9223372036854775808]
// out: [  -9223372036854775807] [-9223372036854775807  ] [-009223372036854775807]
// out: [5]
