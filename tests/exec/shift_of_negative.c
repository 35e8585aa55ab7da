// A left shift of a negative number is a product.
#include <glib.h>

int main (int argc, char **argv)
{
    gint a;
    a = -5;
    g_print ("%d\n", a << 2);
    return 0;
}

// out: -20
// real: C says nothing of it, though gcc does the same
