class C { var x; C(a) : x = (a) {} }
