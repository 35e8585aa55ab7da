// The variables of a block keep what is in them.
#include <glib.h>

int main (int argc, char **argv)
{
    gint i;
    i = 0;
    again: ;
    {
        gint c;
        if (i == 0) {
            c = 41;
        }
        c = c + 1;
        g_print ("%d\n", c);
    }
    i = i + 1;
    if (i < 2) goto again;
    return 0;
}

// out: 42
// out: 43
// real: in C they are not kept
