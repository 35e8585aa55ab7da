// Quotients go to zero, remainders have the sign of the dividend.
#include <glib.h>

int main (int argc, char **argv)
{
    gint a;
    gint b;
    a = -7;
    b = 2;
    g_print ("%d %d %d %d %d\n", a + b, a - b, a * b, a / b, a % b);
    g_print ("%d %d\n", 7 / -2, 7 % -2);
    g_print ("%d %d %d\n", -a, +a, ~a);
    g_print ("%d %d %d\n", 1 + 2 * 3, (1 + 2) * 3, 10 - 4 - 3);
    g_print ("%d %d %d\n", 12 & 10, 12 | 10, 12 ^ 10);
    return 0;
}

// out: -5 -9 -14 -3 -1
// out: -3 1
// out: 7 -7 6
// out: 7 9 3
// out: 8 14 6
