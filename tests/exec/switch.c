// The first case of the number decides, else the default.
#include <glib.h>

int main (int argc, char **argv)
{
    gint i;
    i = -1;
    again: ;
    switch (i) {
        case -1: goto minus;
        case 1: goto one;
        case 2: goto two;
        default: goto other;
    }
    minus: ;
    g_print ("minus\n");
    goto next;
    one: ;
    g_print ("one\n");
    two: ;
    g_print ("two\n");
    goto next;
    other: ;
    g_print ("other\n");
    next: ;
    i = i + 1;
    if (i < 4) goto again;
    return 0;
}

// out: minus
// out: other
// out: one
// out: two
// out: two
// out: other
