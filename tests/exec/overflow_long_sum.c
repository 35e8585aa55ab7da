// A long sum is too large.
#include <glib.h>

int main (int argc, char **argv)
{
    gint64 x;
    x = 9223372036854775807;
    x = x + 1;
    return 0;
}

// err: vala2c: undefined overflow
// status: 24
