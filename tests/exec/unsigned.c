// Numbers without a sign wrap.
#include <glib.h>

int main (int argc, char **argv)
{
    guint a;
    guint64 b;
    a = 0;
    b = 0;
    g_print ("%u %u %u\n", a - 1, a - 2147483648U - 2147483648U, 4294967295U * 4294967295U);
    g_print ("%lu %u %u\n", b - 1, -1U, ~a);
    return 0;
}

// out: 4294967295 0 1
// out: 18446744073709551615 4294967295 4294967295
