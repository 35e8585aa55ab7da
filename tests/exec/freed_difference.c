// Two pointers into a freed text are subtracted.
#include <glib.h>

int main (int argc, char **argv)
{
    gchar *s;
    glong n;
    s = g_strdup ("abc");
    g_free (s);
    n = s - s;
    return 0;
}

// err: vala2c: undefined freed
// status: 24
