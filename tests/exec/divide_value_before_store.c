// The bounds of a place are looked at when the value is stored.
#include <glib.h>

int main (int argc, char **argv)
{
    gint *p;
    gint z;
    p = g_new0 (gint, 1);
    z = 0;
    p[1] = 1 / z;
    return 0;
}

// err: vala2c: undefined divide
// status: 24
