// A shift amount is negative.
#include <glib.h>

int main (int argc, char **argv)
{
    guint x;
    gint n;
    n = -1;
    x = 1U >> n;
    return 0;
}

// err: vala2c: undefined overflow
// status: 24
