// Pointers to what was freed may be compared.
#include <glib.h>

int main (int argc, char **argv)
{
    gchar *s;
    gchar *t;
    s = g_strdup ("a");
    t = s;
    g_free (s);
    g_print ("%d %d %d\n", s == t, s == NULL, s ? 1 : 0);
    return 0;
}

// out: 1 0 1
// real: C says nothing of it
