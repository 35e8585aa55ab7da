// An array of 2^63 elements is none.
#include <glib.h>

int main (int argc, char **argv)
{
    gint *p;
    g_print ("in\n");
    p = g_new0 (gint, 9223372036854775808UL);
    return p == NULL;
}

// out: in
// err: vala2c: trap length
// status: 22
// real: GLib aborts with a text of its own
