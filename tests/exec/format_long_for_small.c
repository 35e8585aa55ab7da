// A long number that fits 32 bits is taken where an int is.
#include <glib.h>

int main (int argc, char **argv)
{
    glong n;
    n = 5;
    g_print ("%d\n", n);
    return 0;
}

// out: 5
