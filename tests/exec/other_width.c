// A cell is read modulo the width of the type read.
#include <glib.h>

int main (int argc, char **argv)
{
    gint i;
    guchar *p;
    i = 511;
    p = (guchar *) &i;
    g_print ("%d\n", *p);
    return 0;
}

// out: 255
