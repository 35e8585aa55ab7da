// A number is read as a pointer.
#include <glib.h>

int main (int argc, char **argv)
{
    gint a;
    gint **p;
    gint *q;
    a = 1;
    p = (gint **) &a;
    q = *p;
    return 0;
}

// err: vala2c: undefined kind
// status: 24
