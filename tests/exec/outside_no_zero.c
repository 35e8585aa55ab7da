// A text has no zero.
#include <glib.h>

int main (int argc, char **argv)
{
    gchar *s;
    s = g_new0 (gchar, 2);
    s[0] = 'a';
    s[1] = 'b';
    g_print ("%s", s);
    return 0;
}

// err: vala2c: undefined outside
// status: 24
