// A pointer is read as a number.
#include <glib.h>

int main (int argc, char **argv)
{
    gint a;
    gint *p;
    gint *q;
    a = 1;
    p = &a;
    q = (gint *) &p;
    return *q;
}

// err: vala2c: undefined kind
// status: 24
