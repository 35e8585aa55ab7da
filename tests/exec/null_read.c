// Null is read through.
#include <glib.h>

int main (int argc, char **argv)
{
    gint *p;
    p = NULL;
    return *p;
}

// err: vala2c: undefined null
// status: 24
