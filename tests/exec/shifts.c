// Shifts of numbers with a sign and without.
#include <glib.h>

int main (int argc, char **argv)
{
    gint a;
    guint b;
    a = -5;
    b = 4294967291U;
    g_print ("%d %d %u %u\n", a >> 1, 3 << 4, b >> 1, b << 4);
    g_print ("%ld %lu\n", (glong) 1 << 40, 1UL << 63);
    g_print ("%d\n", 1 << 30);
    return 0;
}

// out: -3 48 2147483645 4294967216
// out: 1099511627776 9223372036854775808
// out: 1073741824
