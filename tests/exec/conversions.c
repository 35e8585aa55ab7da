// Numbers are converted modulo the width of their place.
#include <glib.h>

int main (int argc, char **argv)
{
    gchar c;
    guchar d;
    gshort e;
    gushort f;
    gint g;
    guint h;
    glong i;
    gulong j;
    c = 200;
    d = 456;
    e = 40000;
    f = -1;
    g = 4294967295U;
    h = -1;
    i = 4294967295U;
    j = -1;
    g_print ("%d %d %d %d %d %u %ld %lu\n", c, d, e, f, g, h, i, j);
    g_print ("%d %d %u\n", (gchar) 300, (guchar) -1, (guint) -2);
    return 0;
}

// out: -56 200 -25536 65535 -1 4294967295 4294967295 18446744073709551615
// out: 44 255 4294967294
