// Null is stored through.
#include <glib.h>

int main (int argc, char **argv)
{
    gint *p;
    p = NULL;
    *p = 1;
    return 0;
}

// err: vala2c: undefined null
// status: 24
