// g_free takes null, texts, arrays and slices.
#include <glib.h>

typedef struct _Node Node;
struct _Node {
    gint value;
    Node *next;
};

int main (int argc, char **argv)
{
    Node *p;
    g_free (NULL);
    p = g_slice_new0 (Node);
    g_free (p);
    g_print ("done\n");
    return 0;
}

// out: done
// real: GLib's g_free takes no slice
