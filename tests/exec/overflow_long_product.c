// A long product is too large.
#include <glib.h>

int main (int argc, char **argv)
{
    gint64 x;
    x = 4294967296;
    x = x * x;
    return 0;
}

// err: vala2c: undefined overflow
// status: 24
