// The least number has no quotient by -1, so no remainder either.
#include <glib.h>

int main (int argc, char **argv)
{
    gint x;
    x = -2147483647 - 1;
    x = x % -1;
    return 0;
}

// err: vala2c: undefined overflow
// status: 24
