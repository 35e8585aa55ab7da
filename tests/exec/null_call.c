// Null is called.
#include <glib.h>

typedef void (*F) (void);

int main (int argc, char **argv)
{
    F f;
    f = NULL;
    f ();
    return 0;
}

// err: vala2c: undefined null
// status: 24
