// A cell of an array is stored to after the array was freed.
#include <glib.h>

int main (int argc, char **argv)
{
    gint *p;
    p = g_new0 (gint, 2);
    g_free (p);
    p[0] = 1;
    return 0;
}

// err: vala2c: undefined freed
// status: 24
