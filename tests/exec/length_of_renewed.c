// Nor is an array renewed to so many, whatever becomes of the number.
#include <glib.h>

int main (int argc, char **argv)
{
    gint *p;
    p = g_new0 (gint, 2);
    p = g_renew (gint, p, -1);
    return p == NULL;
}

// err: vala2c: trap length
// status: 22
// real: GLib aborts with a text of its own
