// What is made, printed and freed, in order.
#include <glib.h>

typedef struct _Node Node;
struct _Node {
    gint value;
    Node *next;
};

typedef struct _Scope Scope;
typedef struct _Activation Activation;

struct _Scope {
    gsize _ref_count_;
    gint value;
};

struct _Activation {
    gint _state_;
};

int main (int argc, char **argv)
{
    gchar *s;
    gint *a;
    GError *e;
    Scope *b;
    Activation *c;
    Node *n;
    s = g_strdup ("ab");
    a = g_new0 (gint, 2);
    e = g_error_new (1, 2, "bad");
    b = g_slice_new0 (Scope);
    c = g_slice_new0 (Activation);
    n = g_slice_new0 (Node);
    g_print ("%s\n", s);
    g_printerr ("e\n");
    g_print ("");
    g_free (s);
    g_slice_free (Node, n);
    g_slice_free (Activation, c);
    g_slice_free (Scope, b);
    g_error_free (e);
    a = g_renew (gint, a, 3);
    g_free (a);
    return 0;
}

// words: --trace
// out: ab
// err: e
// err: made 1 text
// err: made 2 array
// err: made 3 error
// err: made 4 scope
// err: made 5 activation
// err: out 3
// err: err 2
// err: out 0
// err: gone 1
// err: gone 5
// err: gone 4
// err: gone 3
// err: made 6 array
// err: gone 2
// err: gone 6
