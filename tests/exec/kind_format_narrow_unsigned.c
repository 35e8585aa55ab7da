// A number of 8 bits is widened to one with a sign.
#include <glib.h>

int main (int argc, char **argv)
{
    guchar c;
    c = 200;
    g_print ("%d\n", c);
    g_print ("%u\n", c);
    return 0;
}

// out: 200
// err: vala2c: undefined kind
// status: 24
