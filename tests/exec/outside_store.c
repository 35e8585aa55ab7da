// The element behind the last one is stored to.
#include <glib.h>

int main (int argc, char **argv)
{
    gint *p;
    p = g_new0 (gint, 3);
    p[2] = 1;
    p[3] = 1;
    return 0;
}

// err: vala2c: undefined outside
// status: 24
