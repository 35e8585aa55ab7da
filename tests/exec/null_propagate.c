// No error is moved.
#include <glib.h>

int main (int argc, char **argv)
{
    GError *e;
    e = NULL;
    g_propagate_error (&e, NULL);
    return 0;
}

// err: vala2c: undefined null
// status: 24
