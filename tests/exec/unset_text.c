// A byte of a text was never set.
#include <glib.h>

int main (int argc, char **argv)
{
    gchar *s;
    s = g_renew (gchar, NULL, 3);
    s[0] = 'a';
    s[2] = 0;
    g_print ("%s", s);
    return 0;
}

// err: vala2c: undefined unset
// status: 24
