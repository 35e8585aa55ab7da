// Arguments of fewer than 32 bits are widened to numbers with a sign.
#include <glib.h>

int main (int argc, char **argv)
{
    gchar a;
    guchar b;
    gshort c;
    gushort d;
    gboolean e;
    a = -1;
    b = 255;
    c = -300;
    d = 65535;
    e = 2 > 1;
    g_print ("%d %d %d %d %d\n", a, b, c, d, e);
    return 0;
}

// out: -1 255 -300 65535 1
