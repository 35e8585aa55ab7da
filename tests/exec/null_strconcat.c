// Null is joined to a text.
#include <glib.h>

int main (int argc, char **argv)
{
    gchar *s;
    s = NULL;
    s = g_strconcat ("a", s, NULL);
    return 0;
}

// err: vala2c: undefined null
// status: 24
