main() {
  var declared = 'variable';
  declared: for (var i = 0; i < 2; i++) {
    for (var j = 0; j < 2; j++) {
      if (j == 1) continue declared;
      print('$declared $i $j');
    }
    print('never');
  }
  shadowed: while (true) {
    shadowed: while (true) {
      break shadowed;
    }
    print('outer loop');
    break shadowed;
  }
  declared: {
    print('block');
    break declared;
  }
}
