class A {
  int }
