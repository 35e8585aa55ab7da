// The texts stand before the message line.
#include <glib.h>

int main (int argc, char **argv)
{
    gchar *s;
    s = g_strdup ("a");
    g_print ("%s\n", s);
    g_free (s + 1);
    return 0;
}

// words: --trace --live
// out: a
// err: made 1 text
// err: out 2
// err: live 1 text 1
// err: vala2c: undefined kind
// status: 24
