// So it is with a trap.
#include <glib.h>

int main (int argc, char **argv)
{
    gchar *s;
    s = g_strdup ("a");
    g_printerr ("%s\n", s);
    g_error ("index");
    return 0;
}

// words: --trace --live
// err: a
// err: made 1 text
// err: err 2
// err: live 1 text 1
// err: vala2c: trap index
// status: 22
// real: err has more lines here
