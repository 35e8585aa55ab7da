// Null has no elements.
#include <glib.h>

int main (int argc, char **argv)
{
    gint *p;
    p = NULL;
    return p[0];
}

// err: vala2c: undefined null
// status: 24
