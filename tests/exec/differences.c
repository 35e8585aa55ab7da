// Pointers into one text are subtracted, and compared.
#include <glib.h>

int main (int argc, char **argv)
{
    gchar *s;
    gchar *t;
    s = g_strdup ("hello");
    t = s + 3;
    g_print ("%ld %ld %d %d\n", t - s, s - t, t == s + 3, t != s);
    g_print ("%c%c%s\n", *t, s[1], s + 2);
    g_free (s);
    return 0;
}

// out: 3 -3 1 1
// out: lello
