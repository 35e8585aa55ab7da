// Arguments, results, recursion and functions as values.
#include <glib.h>

typedef gint (*Function) (gint n);

gint factorial (gint n);

static gint twice (gint n)
{
    return n * 2;
}

static void show (Function f, gint n)
{
    gint r;
    r = f (n);
    g_print ("%d\n", r);
    return;
}

gint factorial (gint n)
{
    gint rest;
    if (n <= 1) {
        return 1;
    }
    rest = factorial (n - 1);
    return n * rest;
}

int main (int argc, char **argv)
{
    Function f;
    f = twice;
    g_print ("%d %d %d\n", f == NULL, f == twice, f != factorial);
    g_print ("in main\n");
    show (f, 4);
    f = factorial;
    show (f, 5);
    return 0;
}

// out: 0 1 1
// out: in main
// out: 8
// out: 120
