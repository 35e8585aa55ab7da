// A copy follows the message pointer, which may have been stored over.
#include <glib.h>

int main (int argc, char **argv)
{
    GError *e;
    GError *c;
    e = g_error_new (1, 2, "a");
    e->message = "other";
    e->code = 9;
    c = g_error_copy (e);
    g_print ("%s %d\n", c->message, c->code);
    g_error_free (c);
    return 0;
}

// out: other 9
