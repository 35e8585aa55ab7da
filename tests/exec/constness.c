// const has no effect.
#include <glib.h>

int main (int argc, char **argv)
{
    const gint a;
    const gchar * const *q;
    gchar *s;
    s = "x";
    q = &s;
    a = 5;
    g_print ("%d %s\n", a, *q);
    return 0;
}

// out: 5 x
// real: in C what is const is not stored to
