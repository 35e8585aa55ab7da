// main may be called.
#include <glib.h>

int main (int argc, char **argv)
{
    gint r;
    g_print ("%d\n", argc);
    if (argc > 2) {
        return 5;
    }
    r = main (argc + 1, argv);
    return r;
}

// out: 1
// out: 2
// out: 3
// status: 5
