// A local is read before it is stored to.
#include <glib.h>

int main (int argc, char **argv)
{
    gint i;
    g_print ("%d", i);
    return 0;
}

// err: vala2c: undefined unset
// status: 24
