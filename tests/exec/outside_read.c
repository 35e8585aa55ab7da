// The element behind the last one is read.
#include <glib.h>

int main (int argc, char **argv)
{
    gint *p;
    p = g_new0 (gint, 3);
    return p[3];
}

// err: vala2c: undefined outside
// status: 24
