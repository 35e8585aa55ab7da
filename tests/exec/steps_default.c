// Ten million steps are made where nothing else is asked for.
#include <glib.h>

int main (int argc, char **argv)
{
    gint i;
    i = 0;
    again: ;
    i = i + 1;
    if (i < 3333332) goto again;
    g_print ("%d\n", i);
    return 0;
}

// out: 3333332
