// A shift amount is the width.
#include <glib.h>

int main (int argc, char **argv)
{
    gint x;
    gint n;
    n = 32;
    x = 1 << n;
    return 0;
}

// err: vala2c: undefined overflow
// status: 24
