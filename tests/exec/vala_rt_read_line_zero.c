// A line is cut at a zero byte.
#include <glib.h>

int main (int argc, char **argv)
{
    gchar *s;
    again: ;
    s = vala_rt_read_line ();
    if (s != NULL) {
        g_print ("[%s]\n", s);
        g_free (s);
        goto again;
    }
    s = vala_rt_read_line ();
    g_print ("%d\n", s == NULL);
    return 0;
}

// words: --input input
// input: ab\x00cd
// input: \x00
// input: ef
// out: [ab]
// out: []
// out: [ef]
// out: 1
