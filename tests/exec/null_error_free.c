// g_error_free takes no null.
#include <glib.h>

int main (int argc, char **argv)
{
    GError *e;
    e = NULL;
    g_error_free (e);
    return 0;
}

// err: vala2c: undefined null
// status: 24
