// g_renew takes no text.
#include <glib.h>

int main (int argc, char **argv)
{
    gchar *s;
    s = g_strdup ("a");
    s = g_renew (gchar, s, 5);
    return 0;
}

// err: vala2c: undefined kind
// status: 24
