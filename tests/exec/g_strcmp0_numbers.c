// The numbers are -1, 0 and 1.
#include <glib.h>

int main (int argc, char **argv)
{
    gint n;
    n = g_strcmp0 ("a", "z");
    g_print ("%d", n);
    n = g_strcmp0 ("zz", "a");
    g_print (" %d\n", n);
    return 0;
}

// out: -1 1
// real: the sign alone is told there
