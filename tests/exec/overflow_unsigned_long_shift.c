// A shift amount is the width of a long number.
#include <glib.h>

int main (int argc, char **argv)
{
    guint64 x;
    x = 1;
    x = x << 63;
    g_print ("%lu\n", x);
    x = x << 64;
    return 0;
}

// out: 9223372036854775808
// err: vala2c: undefined overflow
// status: 24
