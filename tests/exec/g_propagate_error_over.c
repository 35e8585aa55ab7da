// What was in the place is lost, and may be unset.
#include <glib.h>

int main (int argc, char **argv)
{
    GError *into;
    GError *e;
    e = g_error_new (1, 2, "a");
    g_propagate_error (&into, e);
    e = g_error_new (1, 3, "b");
    g_propagate_error (&into, e);
    g_print ("%s\n", into->message);
    return 0;
}

// words: --trace --live
// out: b
// err: made 1 error
// err: made 2 error
// err: out 2
// err: live 1 error 1
// err: live 2 error 1
// real: GLib warns of it
