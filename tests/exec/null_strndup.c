// A front of null is asked for.
#include <glib.h>

int main (int argc, char **argv)
{
    gchar *s;
    s = NULL;
    s = g_strndup (s, 0);
    return 0;
}

// err: vala2c: undefined null
// status: 24
