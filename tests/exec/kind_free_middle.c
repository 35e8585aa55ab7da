// A place inside an array is freed.
#include <glib.h>

int main (int argc, char **argv)
{
    gint *p;
    p = g_new0 (gint, 2);
    g_free (p + 1);
    return 0;
}

// err: vala2c: undefined kind
// status: 24
