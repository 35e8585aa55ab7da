// The last line may be ended too.
#include <glib.h>

int main (int argc, char **argv)
{
    gchar *s;
    again: ;
    s = vala_rt_read_line ();
    if (s != NULL) {
        g_print ("[%s]\n", s);
        g_free (s);
        goto again;
    }
    s = vala_rt_read_line ();
    g_print ("%d\n", s == NULL);
    return 0;
}

// words: --input input
// input: one
// input: two
// out: [one]
// out: [two]
// out: 1
