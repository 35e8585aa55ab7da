// A pointer may stand behind the last element, where nothing is read.
#include <glib.h>

int main (int argc, char **argv)
{
    gint *p;
    gint *e;
    p = g_new0 (gint, 3);
    e = &p[3];
    g_print ("%d\n", e == p + 3);
    e = e - 1;
    *e = 4;
    g_print ("%d\n", p[2]);
    g_free (p);
    return 0;
}

// out: 1
// out: 4
