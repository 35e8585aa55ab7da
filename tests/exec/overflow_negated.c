// The least number has no opposite.
#include <glib.h>

int main (int argc, char **argv)
{
    gint x;
    x = -2147483647 - 1;
    x = -x;
    return 0;
}

// err: vala2c: undefined overflow
// status: 24
