// A local is freed.
#include <glib.h>

int main (int argc, char **argv)
{
    gint a;
    g_free (&a);
    return 0;
}

// err: vala2c: undefined kind
// status: 24
