// The length of a freed text is asked for.
#include <glib.h>
#include <string.h>

int main (int argc, char **argv)
{
    gchar *s;
    gsize n;
    s = g_strdup ("abc");
    g_free (s);
    n = strlen (s);
    return 0;
}

// err: vala2c: undefined freed
// status: 24
