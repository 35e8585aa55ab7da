// A cell of an array is read after the array was freed.
#include <glib.h>

int main (int argc, char **argv)
{
    gint *p;
    gint i;
    p = g_new0 (gint, 2);
    g_free (p);
    i = p[1];
    return i;
}

// err: vala2c: undefined freed
// status: 24
