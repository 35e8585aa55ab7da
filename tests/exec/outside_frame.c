// A pointer goes behind the variables of its frame.
#include <glib.h>

int main (int argc, char **argv)
{
    gint a;
    gint *p;
    p = &a + 5;
    return 0;
}

// err: vala2c: undefined outside
// status: 24
