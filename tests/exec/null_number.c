// Null is no text of a number.
#include <glib.h>

int main (int argc, char **argv)
{
    gint64 n;
    n = g_ascii_strtoll (NULL, NULL, 10);
    return 0;
}

// err: vala2c: undefined null
// status: 24
