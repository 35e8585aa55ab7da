// Null has no length.
#include <glib.h>
#include <string.h>

int main (int argc, char **argv)
{
    gchar *s;
    gsize n;
    s = NULL;
    n = strlen (s);
    return 0;
}

// err: vala2c: undefined null
// status: 24
