// The null of a zeroed block divides as zero.
#include <glib.h>

int main (int argc, char **argv)
{
    gint *p;
    p = g_new0 (gint, 1);
    return 7 / p[0];
}

// err: vala2c: undefined divide
// status: 24
