// The least number divided by -1 is too large.
#include <glib.h>

int main (int argc, char **argv)
{
    gint x;
    x = -2147483647 - 1;
    x = x / -1;
    return 0;
}

// err: vala2c: undefined overflow
// status: 24
