// Without a name it is that of the file.
#include <glib.h>

int main (int argc, char **argv)
{
    g_print ("%s\n", argv[0]);
    return 0;
}

// out: name_of_file
// real: it has another name there
