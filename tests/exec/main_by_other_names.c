// main may name its parameters and write its types otherwise.
#include <glib.h>

gint main (gint n, gchar **words)
{
    g_print ("%d\n", n);
    return 0;
}

// out: 1
