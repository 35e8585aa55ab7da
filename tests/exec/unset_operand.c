// A part that decides nothing is not evaluated, one that decides is.
#include <glib.h>

int main (int argc, char **argv)
{
    gint i;
    gint j;
    j = 0 && i;
    j = 1 || i;
    j = 1 ? j : i;
    g_print ("%d\n", j);
    j = 1 && i;
    return 0;
}

// out: 1
// err: vala2c: undefined unset
// status: 24
