// A function is called with too many arguments.
#include <glib.h>

typedef void (*F) (gint a);

static void g (void)
{
}

int main (int argc, char **argv)
{
    F f;
    f = (F) g;
    f (1);
    return 0;
}

// err: vala2c: undefined func
// status: 24
