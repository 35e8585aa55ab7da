// A product is too large.
#include <glib.h>

int main (int argc, char **argv)
{
    gint x;
    x = 65536;
    x = x * x;
    return 0;
}

// err: vala2c: undefined overflow
// status: 24
