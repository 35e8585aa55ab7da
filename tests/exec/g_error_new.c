// Errors: their parts, copies, tests.
#include <glib.h>

int main (int argc, char **argv)
{
    GError *e;
    GError *c;
    gboolean b;
    e = g_error_new (7, 3, "no %s at %d", "file", 5);
    g_print ("%u %d %s\n", e->domain, e->code, e->message);
    c = g_error_copy (e);
    g_error_free (e);
    g_print ("%u %d %s\n", c->domain, c->code, c->message);
    b = g_error_matches (c, 7, 3);
    g_print ("%d", b);
    b = g_error_matches (c, 7, 4);
    g_print ("%d", b);
    b = g_error_matches (c, 8, 3);
    g_print ("%d", b);
    b = g_error_matches (NULL, 7, 3);
    g_print ("%d\n", b);
    g_error_free (c);
    return 0;
}

// out: 7 3 no file at 5
// out: 7 3 no file at 5
// out: 1000
