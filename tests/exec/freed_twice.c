// A text is freed twice.
#include <glib.h>

int main (int argc, char **argv)
{
    gchar *s;
    s = g_strdup ("a");
    g_free (s);
    g_print ("once\n");
    g_free (s);
    return 0;
}

// out: once
// err: vala2c: undefined freed
// status: 24
