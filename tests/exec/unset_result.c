// A function with a result ends without return.
#include <glib.h>

static gint none (void)
{
    g_print ("none\n");
}

int main (int argc, char **argv)
{
    gint i;
    i = none ();
    return i;
}

// out: none
// err: vala2c: undefined unset
// status: 24
