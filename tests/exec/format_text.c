// %s: null, flags, width.
#include <glib.h>

int main (int argc, char **argv)
{
    gchar *n;
    n = NULL;
    g_print ("[%s] [%5s] [%-5s] [%2s] [%s]\n", "abc", "abc", "abc", "abc", "");
    g_print ("[%s] [%8s] [%-8s]\n", n, n, n);
    return 0;
}

// out: [abc] [  abc] [abc  ] [abc] []
// out: [(null)] [  (null)] [(null)  ]
