// Null has no front.
#include <glib.h>

int main (int argc, char **argv)
{
    gboolean b;
    b = g_str_has_prefix (NULL, "a");
    return 0;
}

// err: vala2c: undefined null
// status: 24
