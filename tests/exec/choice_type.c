// A choice between numbers has their common type.
#include <glib.h>

int main (int argc, char **argv)
{
    glong n;
    n = 1 ? -1 : 1U;
    g_print ("%ld\n", n);
    return 0;
}

// out: 4294967295
