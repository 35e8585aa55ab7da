// A hundred thousand calls are open at once.
#include <glib.h>

static gint depth (gint n)
{
    gint r;
    if (n == 0) {
        return 0;
    }
    r = depth (n - 1);
    return r + 1;
}

int main (int argc, char **argv)
{
    gint r;
    r = depth (100000);
    g_print ("%d\n", r);
    return 0;
}

// out: 100000
