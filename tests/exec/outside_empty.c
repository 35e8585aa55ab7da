// An array of no elements has none.
#include <glib.h>

int main (int argc, char **argv)
{
    gint *p;
    p = g_new0 (gint, 0);
    return p[0];
}

// err: vala2c: undefined outside
// status: 24
