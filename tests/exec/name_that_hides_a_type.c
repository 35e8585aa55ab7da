// A variable may hide the name of a type, which then is the variable.
#include <glib.h>

typedef enum { ONE = 1 } Number;

int main (int argc, char **argv)
{
    Number a;
    a = 6;
    {
        gint Number;
        Number = 2;
        g_print ("%d\n", (Number) - 1);
    }
    g_print ("%d\n", (Number) - 1);
    return a - 6;
}

// out: 1
// out: -1
