// The further cells of a longer array are not zeroed.
#include <glib.h>

int main (int argc, char **argv)
{
    gint *p;
    p = g_renew (gint, NULL, 2);
    p[0] = 1;
    return p[1];
}

// err: vala2c: undefined unset
// status: 24
