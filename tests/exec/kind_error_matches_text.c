// g_error_matches takes no text.
#include <glib.h>

int main (int argc, char **argv)
{
    gchar *s;
    gboolean b;
    s = g_strdup ("a");
    b = g_error_matches ((GError *) s, 1, 1);
    return 0;
}

// err: vala2c: undefined kind
// status: 24
