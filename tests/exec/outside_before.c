// A pointer goes in front of its block.
#include <glib.h>

int main (int argc, char **argv)
{
    gint *p;
    p = g_new0 (gint, 3);
    p = p - 1;
    return 0;
}

// err: vala2c: undefined outside
// status: 24
