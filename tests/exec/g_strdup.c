// A text is copied; null stays null.
#include <glib.h>

int main (int argc, char **argv)
{
    gchar *s;
    gchar *t;
    s = g_strdup ("abc");
    t = g_strdup (s);
    t[0] = 'x';
    g_print ("%s %s\n", s, t);
    g_free (s);
    g_free (t);
    s = g_strdup (NULL);
    g_print ("%d\n", s == NULL);
    s = g_strdup ("");
    g_print ("[%s]\n", s);
    g_free (s);
    return 0;
}

// out: abc xbc
// out: 1
// out: []
