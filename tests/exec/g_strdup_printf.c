// A formatted text.
#include <glib.h>

int main (int argc, char **argv)
{
    gchar *s;
    s = g_strdup_printf ("%s has %d of %c%%", "x", -4, 'y');
    g_print ("%s\n", s);
    g_free (s);
    s = g_strdup_printf ("ab%ccd", 0);
    g_print ("[%s]\n", s);
    g_free (s);
    s = g_strdup_printf ("plain");
    g_print ("%s\n", s);
    g_free (s);
    return 0;
}

// out: x has -4 of y%
// out: [ab]
// out: plain
