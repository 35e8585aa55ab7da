// A long number is divided by zero.
#include <glib.h>

int main (int argc, char **argv)
{
    gint64 a;
    a = 0;
    a = 1 / a;
    return 0;
}

// err: vala2c: undefined divide
// status: 24
