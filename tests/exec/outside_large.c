// An index without a sign is taken as its number.
#include <glib.h>

int main (int argc, char **argv)
{
    gint *p;
    guint i;
    p = g_new0 (gint, 3);
    i = 4294967295U;
    p = &p[i];
    return 0;
}

// err: vala2c: undefined outside
// status: 24
