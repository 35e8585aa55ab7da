// The left operand alone says how far a shift goes.
#include <glib.h>

int main (int argc, char **argv)
{
    gint x;
    glong n;
    n = 31;
    x = 1 << (n - 1);
    g_print ("%d\n", x);
    n = 32;
    x = 1 >> n;
    return 0;
}

// out: 1073741824
// err: vala2c: undefined overflow
// status: 24
