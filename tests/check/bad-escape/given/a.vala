void main () { print ("a\q"); }
