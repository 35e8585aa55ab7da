// The trace stands before what lives.
#include <glib.h>

int main (int argc, char **argv)
{
    gchar *s;
    s = g_strdup ("a");
    g_print ("%s\n", s);
    return 4;
}

// words: --live --trace
// out: a
// err: made 1 text
// err: out 2
// err: live 1 text 1
// status: 4
