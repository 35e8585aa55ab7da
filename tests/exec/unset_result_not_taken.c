// A function with a result ends without return, and nobody takes the result.
#include <glib.h>

static gint none (void)
{
}

int main (int argc, char **argv)
{
    none ();
    return 0;
}

// err: vala2c: undefined unset
// status: 24
