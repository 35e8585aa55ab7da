// g_error_free takes no text.
#include <glib.h>

int main (int argc, char **argv)
{
    gchar *s;
    s = g_strdup ("a");
    g_error_free ((GError *) s);
    return 0;
}

// err: vala2c: undefined kind
// status: 24
