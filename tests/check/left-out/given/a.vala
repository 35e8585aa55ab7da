void main () { lock (x) { } }
