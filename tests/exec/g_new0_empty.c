// An array of no elements is an array.
#include <glib.h>

int main (int argc, char **argv)
{
    gint *p;
    p = g_new0 (gint, 0);
    g_print ("%d\n", p == NULL);
    g_free (p);
    return 0;
}

// out: 0
// real: g_new0 gives null there
