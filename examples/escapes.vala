void main () {
  print ("a \"quoted\" word\n");
  print ("a backslash: \\\n");
}
