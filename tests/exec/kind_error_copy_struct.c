// g_error_copy takes no other struct.
#include <glib.h>

typedef struct _Node Node;
struct _Node {
    gint value;
    Node *next;
};

int main (int argc, char **argv)
{
    Node *p;
    GError *e;
    p = g_slice_new0 (Node);
    e = g_error_copy ((GError *) p);
    return 0;
}

// err: vala2c: undefined kind
// status: 24
