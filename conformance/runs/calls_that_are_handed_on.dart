class Proxy {
  final target, log = [];
  Proxy(this.target);
  noSuchMethod(Invocation call) {
    log.add(call.memberName);
    var arguments = call.positionalArguments;
    if (call.isGetter && call.memberName == 'length') return target.length;
    if (call.memberName == 'add') return target.add(arguments[0]);
    if (call.memberName == '[]') return target[arguments[0]];
    return super.noSuchMethod(call);
  }
}

class Markup {
  noSuchMethod(call) {
    var open = call.memberName;
    call.namedArguments.forEach((name, value) => open += ' $name="$value"');
    return '<$open>${call.positionalArguments.join()}</${call.memberName}>';
  }
}

abstract class Stack {
  push(x);
  pop();
  get size;
}

class Fake implements Stack {
  final answers;
  Fake(this.answers);
  noSuchMethod(call) => answers[call.memberName];
}

class Strict {
  only(a, {b}) => '$a $b';
  get run => (x) => 'ran $x';
  var held = (x) => 'held $x';
}

class Lenient extends Strict {
  noSuchMethod(call) => 'no ${call.memberName} of ${call.positionalArguments.length}';
}

main() {
  var proxy = new Proxy([1, 2]);
  proxy.add(3);
  print([proxy.length, proxy[2], proxy.target]);
  for (var f in [() => proxy.clear(), () => proxy.first, () => proxy.size = 3, () => proxy(1), () => proxy[0] = 9]) {
    try {
      f();
    } catch (error) {
      print(error);
    }
  }
  print(proxy.log);
  var m = new Markup();
  print(m.p('a ', m.b('bold'), id: 7, lang: 'en'));
  print([m.hr(), m.br]);
  var fake = new Fake({'pop': 'top', 'size': 4});
  print([fake.push(1), fake.pop(), fake.size, fake is Stack]);
  var strict = new Strict(), lenient = new Lenient();
  print([strict.run(1), strict.held(2), strict.only(3, b: 4)]);
  print([lenient.only(), lenient.only(1, c: 2), lenient.only(1, 2), lenient.any(1, 2, 3), lenient.toString(1)]);
  try {
    strict.only();
  } catch (error) {
    print(error);
  }
}
