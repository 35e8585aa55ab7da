// A hexadecimal number without U has a sign.
#include <glib.h>

int main (int argc, char **argv)
{
    g_print ("%d %d\n", -1 < 0xFFFFFFFF, 0xff);
    return 0;
}

// out: 1 255
// real: in C 0xFFFFFFFF has no sign
