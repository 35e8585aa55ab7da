// g_slice_new0 gives a zeroed block.
#include <glib.h>

typedef struct _Node Node;
struct _Node {
    gint value;
    Node *next;
};

int main (int argc, char **argv)
{
    Node *p;
    Node *q;
    p = g_slice_new0 (Node);
    q = g_slice_new0 (Node);
    p->value = 1;
    p->next = q;
    g_print ("%d %d %d %d\n", p->value, q->value, p->next == q, q->next == NULL);
    g_slice_free (Node, p);
    g_free (q);
    return 0;
}

// out: 1 0 1 1
// real: GLib's g_free takes no slice
