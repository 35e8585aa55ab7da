// With no place the error is freed.
#include <glib.h>

int main (int argc, char **argv)
{
    GError *e;
    e = g_error_new (1, 2, "second");
    g_propagate_error (NULL, e);
    g_print ("%s\n", e->message);
    return 0;
}

// err: vala2c: undefined freed
// status: 24
