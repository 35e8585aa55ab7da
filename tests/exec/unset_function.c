// A function that was never set is called.
#include <glib.h>

typedef void (*F) (void);

int main (int argc, char **argv)
{
    F f;
    f ();
    return 0;
}

// err: vala2c: undefined unset
// status: 24
