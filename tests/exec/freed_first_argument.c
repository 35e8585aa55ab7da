// Of two arguments that end the run the first decides.
#include <glib.h>

int main (int argc, char **argv)
{
    gchar *s;
    gchar *t;
    s = g_strdup ("abc");
    g_free (s);
    t = g_strconcat (s, (gchar *) NULL, NULL);
    return 0;
}

// err: vala2c: undefined freed
// status: 24
