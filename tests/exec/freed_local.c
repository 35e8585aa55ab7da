// A local is read after its function returned.
#include <glib.h>

static gint *at (void)
{
    gint n;
    n = 5;
    return &n;
}

int main (int argc, char **argv)
{
    gint *p;
    p = at ();
    return *p;
}

// err: vala2c: undefined freed
// status: 24
