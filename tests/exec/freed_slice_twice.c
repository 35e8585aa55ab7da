// A struct is freed twice.
#include <glib.h>

typedef struct _Node Node;
struct _Node {
    gint value;
    Node *next;
};

int main (int argc, char **argv)
{
    Node *p;
    p = g_slice_new0 (Node);
    g_slice_free (Node, p);
    g_slice_free (Node, p);
    return 0;
}

// err: vala2c: undefined freed
// status: 24
