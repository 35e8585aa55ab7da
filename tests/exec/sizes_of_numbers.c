// sizeof of a number is one cell.
#include <glib.h>

int main (int argc, char **argv)
{
    g_print ("%lu %lu %lu\n", sizeof (gchar), sizeof (gint64), sizeof (gchar *));
    return 0;
}

// out: 1 1 1
// real: cells are counted, not bytes
