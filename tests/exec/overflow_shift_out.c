// A left shift of a number with a sign is a product.
#include <glib.h>

int main (int argc, char **argv)
{
    gint x;
    x = 1;
    x = x << 31;
    return 0;
}

// err: vala2c: undefined overflow
// status: 24
