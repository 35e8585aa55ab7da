// A difference is too small.
#include <glib.h>

int main (int argc, char **argv)
{
    gint x;
    x = -2147483647;
    x = x - 2;
    return 0;
}

// err: vala2c: undefined overflow
// status: 24
