// A front is longer than a text without a zero.
#include <glib.h>

int main (int argc, char **argv)
{
    gchar *s;
    gchar *t;
    s = g_new0 (gchar, 2);
    s[0] = 'a';
    s[1] = 'b';
    t = g_strndup (s, 2);
    g_print ("%s\n", t);
    t = g_strndup (s, 3);
    return 0;
}

// out: ab
// err: vala2c: undefined outside
// status: 24
