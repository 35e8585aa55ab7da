// Null has no quark.
#include <glib.h>

int main (int argc, char **argv)
{
    GQuark q;
    q = g_quark_from_static_string (NULL);
    return 0;
}

// err: vala2c: undefined null
// status: 24
