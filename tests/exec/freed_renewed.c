// The old array is read behind g_renew.
#include <glib.h>

int main (int argc, char **argv)
{
    gint *p;
    gint *q;
    p = g_new0 (gint, 2);
    q = g_renew (gint, p, 3);
    return p[0] + q[0];
}

// err: vala2c: undefined freed
// status: 24
