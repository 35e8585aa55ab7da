// A number is read as a function.
#include <glib.h>

typedef void (*F) (void);

int main (int argc, char **argv)
{
    F *p;
    gint a;
    F f;
    a = 1;
    p = (F *) &a;
    f = *p;
    return 0;
}

// err: vala2c: undefined kind
// status: 24
