// The message of an error is read after the error was freed.
#include <glib.h>

int main (int argc, char **argv)
{
    GError *e;
    const gchar *m;
    e = g_error_new (1, 2, "lost");
    m = e->message;
    g_error_free (e);
    g_print ("%s\n", m);
    return 0;
}

// err: vala2c: undefined freed
// status: 24
