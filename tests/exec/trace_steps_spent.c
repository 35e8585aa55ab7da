// And where the steps are spent.
#include <glib.h>

int main (int argc, char **argv)
{
    gchar *s;
    s = g_strdup ("a");
    g_print ("%s\n", s);
    return 0;
}

// words: --trace --live --steps 3
// out: a
// err: made 1 text
// err: out 2
// err: live 1 text 1
// err: vala2c: steps spent
// status: 20
// real: it has no bound
