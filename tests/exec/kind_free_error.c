// g_free takes no error.
#include <glib.h>

int main (int argc, char **argv)
{
    GError *e;
    e = g_error_new (1, 1, "a");
    g_free (e);
    return 0;
}

// err: vala2c: undefined kind
// status: 24
