// Null is no format.
#include <glib.h>

int main (int argc, char **argv)
{
    gchar *s;
    s = NULL;
    g_print (s);
    return 0;
}

// err: vala2c: undefined null
// status: 24
