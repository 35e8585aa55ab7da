
 class A {}