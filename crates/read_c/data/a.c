int main (int argc, char **argv) { g_print ("%d", 1); return 0; }
