// More are not.
#include <glib.h>

int main (int argc, char **argv)
{
    gint i;
    i = 0;
    again: ;
    i = i + 1;
    if (i < 3333333) goto again;
    g_print ("%d\n", i);
    return 0;
}

// err: vala2c: steps spent
// status: 20
// real: it has no bound
