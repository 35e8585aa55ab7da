// Nothing is added to null.
#include <glib.h>

int main (int argc, char **argv)
{
    gint *p;
    p = NULL;
    p = p + 0;
    return 0;
}

// err: vala2c: undefined null
// status: 24
