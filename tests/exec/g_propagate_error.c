// An error moves to its place, or is freed.
#include <glib.h>

int main (int argc, char **argv)
{
    GError *e;
    GError *into;
    into = NULL;
    e = g_error_new (1, 2, "first");
    g_propagate_error (&into, e);
    g_print ("%s %d\n", into->message, into == e);
    g_error_free (into);
    e = g_error_new (1, 2, "second");
    g_propagate_error (NULL, e);
    g_print ("done\n");
    return 0;
}

// out: first 1
// out: done
