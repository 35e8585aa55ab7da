// A text has a pointer in it.
#include <glib.h>

int main (int argc, char **argv)
{
    gchar **p;
    gchar *s;
    p = g_new0 (gchar *, 2);
    p[0] = "a";
    s = (gchar *) p;
    g_print ("%s", s);
    return 0;
}

// err: vala2c: undefined kind
// status: 24
