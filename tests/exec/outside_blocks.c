// Pointers into two blocks are subtracted.
#include <glib.h>

int main (int argc, char **argv)
{
    gchar *s;
    gchar *t;
    glong n;
    s = g_strdup ("a");
    t = g_strdup ("a");
    n = s - t;
    return 0;
}

// err: vala2c: undefined outside
// status: 24
