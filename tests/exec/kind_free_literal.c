// A text literal is freed.
#include <glib.h>

int main (int argc, char **argv)
{
    gchar *s;
    s = (gchar *) "a";
    g_free (s);
    return 0;
}

// err: vala2c: undefined kind
// status: 24
