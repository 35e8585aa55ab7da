// g_slice_free takes no array.
#include <glib.h>

typedef struct _Node Node;
struct _Node {
    gint value;
    Node *next;
};

int main (int argc, char **argv)
{
    Node *p;
    p = g_new0 (Node, 1);
    g_slice_free (Node, p);
    return 0;
}

// err: vala2c: undefined kind
// status: 24
