// Comparisons are of the common type.
#include <glib.h>

int main (int argc, char **argv)
{
    gint a;
    guint b;
    glong c;
    a = -1;
    b = 1;
    c = -1;
    g_print ("%d %d %d\n", a < b, c < b, a == c);
    g_print ("%d %d %d %d %d %d\n", 1 < 2, 2 <= 1, 2 > 1, 1 >= 2, 1 == 1, 1 != 1);
    g_print ("%d\n", (guint) a == 4294967295U);
    return 0;
}

// out: 0 1 1
// out: 1 0 1 0 1 0
// out: 1
