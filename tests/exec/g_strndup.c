// A front of a text, at most so many bytes.
#include <glib.h>

int main (int argc, char **argv)
{
    gchar *s;
    s = g_strndup ("abcdef", 3);
    g_print ("%s\n", s);
    g_free (s);
    s = g_strndup ("ab", 10);
    g_print ("%s\n", s);
    g_free (s);
    s = g_strndup ("ab", 0);
    g_print ("[%s]\n", s);
    g_free (s);
    return 0;
}

// out: abc
// out: ab
// out: []
