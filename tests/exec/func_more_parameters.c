// A function is called with too few arguments.
#include <glib.h>

typedef void (*F) (void);

static void g (gint a)
{
}

int main (int argc, char **argv)
{
    F f;
    f = (F) g;
    f ();
    return 0;
}

// err: vala2c: undefined func
// status: 24
