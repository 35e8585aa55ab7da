// A text is printed after it was freed.
#include <glib.h>

int main (int argc, char **argv)
{
    gchar *s;
    s = g_strdup ("a");
    g_free (s);
    g_print ("%s", s);
    return 0;
}

// err: vala2c: undefined freed
// status: 24
