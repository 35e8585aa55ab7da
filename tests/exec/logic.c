// What decides nothing is not evaluated.
#include <glib.h>

int main (int argc, char **argv)
{
    gint *p;
    gint i;
    p = NULL;
    i = 0;
    g_print ("%d %d\n", p != NULL && *p == 1, p == NULL || *p == 1);
    g_print ("%d %d %d\n", !p, !!&i, !5);
    g_print ("%d %d\n", i == 0 ? 7 : 1 / i, i ? 1 : i == 0 ? 2 : 3);
    g_print ("%d\n", 1 ? -1 < 0 : 0);
    return 0;
}

// out: 0 1
// out: 1 1 0
// out: 7 2
// out: 1
