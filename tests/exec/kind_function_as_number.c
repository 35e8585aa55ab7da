// A function is read through.
#include <glib.h>

static void f (void)
{
}

int main (int argc, char **argv)
{
    gint *p;
    p = (gint *) f;
    return *p;
}

// err: vala2c: undefined kind
// status: 24
