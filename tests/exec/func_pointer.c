// A pointer is called.
#include <glib.h>

typedef void (*F) (void);

int main (int argc, char **argv)
{
    F f;
    gint a;
    a = 1;
    f = (F) &a;
    f ();
    return 0;
}

// err: vala2c: undefined func
// status: 24
