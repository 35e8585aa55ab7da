// Two texts are joined.
#include <glib.h>

int main (int argc, char **argv)
{
    gchar *s;
    gchar *t;
    s = g_strconcat ("ab", "cd", NULL);
    t = g_strconcat (s, "", NULL);
    g_print ("%s %s\n", s, t);
    g_free (s);
    g_free (t);
    return 0;
}

// out: abcd abcd
