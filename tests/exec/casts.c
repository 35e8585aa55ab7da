// Pointers and functions go through gpointer.
#include <glib.h>

typedef gint (*Function) (gint n);

static gint twice (gint n)
{
    return n * 2;
}

int main (int argc, char **argv)
{
    gpointer p;
    Function f;
    gint a;
    a = 5;
    p = &a;
    g_print ("%d\n", *((gint *) p));
    p = (gpointer) twice;
    f = (Function) p;
    a = f (a);
    g_print ("%d\n", a);
    return 0;
}

// out: 5
// out: 10
