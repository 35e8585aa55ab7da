// Arrays are zeroed, and keep their first elements.
#include <glib.h>

int main (int argc, char **argv)
{
    gint *p;
    p = g_new0 (gint, 2);
    p[1] = 5;
    g_print ("%d %d\n", p[0], p[1]);
    p = g_renew (gint, p, 4);
    p[2] = 6;
    p[3] = 7;
    g_print ("%d %d %d %d\n", p[0], p[1], p[2], p[3]);
    p = g_renew (gint, p, 2);
    g_print ("%d %d\n", p[0], p[1]);
    g_free (p);
    p = g_renew (gint, NULL, 1);
    *p = 9;
    g_print ("%d\n", *p);
    g_free (p);
    return 0;
}

// out: 0 5
// out: 0 5 6 7
// out: 0 5
// out: 9
