// The place is found before the value.
#include <glib.h>

int main (int argc, char **argv)
{
    gint *p;
    gint z;
    p = NULL;
    z = 0;
    *p = 1 / z;
    return 0;
}

// err: vala2c: undefined null
// status: 24
