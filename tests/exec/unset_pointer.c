// A pointer that was never set is read through.
#include <glib.h>

int main (int argc, char **argv)
{
    gint *p;
    return *p;
}

// err: vala2c: undefined unset
// status: 24
