// Blocks have variables of their own, which hide those outside.
#include <glib.h>

int main (int argc, char **argv)
{
    gint a;
    a = 1;
    {
        gint a;
        a = 2;
        g_print ("%d\n", a);
        {
            gint b;
            b = a + 1;
            g_print ("%d\n", b);
        }
    }
    g_print ("%d\n", a);
    return 0;
}

// out: 2
// out: 3
// out: 1
