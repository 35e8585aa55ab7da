// The format is matched with all arguments before the texts are read.
#include <glib.h>

int main (int argc, char **argv)
{
    gchar *s;
    s = g_strdup ("a");
    g_free (s);
    g_print ("%s %d", s, s);
    return 0;
}

// err: vala2c: undefined kind
// status: 24
