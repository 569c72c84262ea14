class Echo {
  known(x) => x;

  noSuchMethod(i) {
    print('${i.memberName} ${i.positionalArguments} ${i.namedArguments} ${i.isGetter} ${i.isSetter}');
    return 7;
  }
}

main() {
  var echo = new Echo();
  print(echo.far(1, 2, loud: true));
  print(echo.near);
  print(echo.near = 3);
  echo[0] = 4;
  print(-echo + echo[5]);
  echo(6);
  echo.known();
  print(echo.known(8));
}
