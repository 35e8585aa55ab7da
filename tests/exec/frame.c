// The variables of a frame are one block, in the order of the text.
#include <glib.h>

int main (int argc, char **argv)
{
    gint a;
    gint b;
    b = 2;
    g_print ("%d\n", *(&a + 1));
    return 0;
}

// out: 2
// real: in C each variable is for itself
