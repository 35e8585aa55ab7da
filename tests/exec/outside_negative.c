// An index is negative.
#include <glib.h>

int main (int argc, char **argv)
{
    gint *p;
    gint i;
    p = g_new0 (gint, 3);
    i = -1;
    return p[i];
}

// err: vala2c: undefined outside
// status: 24
