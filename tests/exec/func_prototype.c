// A function that is only declared is called.
#include <glib.h>

void g (void);

int main (int argc, char **argv)
{
    g ();
    return 0;
}

// err: vala2c: undefined func
// status: 24
