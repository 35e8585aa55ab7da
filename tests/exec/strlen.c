// The bytes up to the zero.
#include <glib.h>
#include <string.h>

int main (int argc, char **argv)
{
    gsize n;
    gchar *s;
    n = strlen ("hello");
    g_print ("%lu", n);
    n = strlen ("");
    g_print (" %lu", n);
    s = g_strdup ("hello");
    s[2] = 0;
    n = strlen (s);
    g_print (" %lu", n);
    n = strlen (s + 3);
    g_print (" %lu\n", n);
    g_free (s);
    return 0;
}

// out: 5 0 2 2
