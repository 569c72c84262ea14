var shadowed = 'library', handedOn = 'library', member = 'library';

outside(read) {
  try {
    return read();
  } catch (error) {
    return error;
  }
}

class S {
  var given;
  S(this.given);
}

class C extends S {
  var declared, shadowed, handed, own, formal, ofFormal, ofMember;
  var initial = outside(() => member);
  var member = 'member';
  static var fixed = 'static';
  C(parameter, shadowed, this.formal)
      : declared = parameter,
        shadowed = shadowed,
        handed = handedOn,
        own = fixed,
        ofFormal = outside(() => formal),
        ofMember = outside(() => member),
        super([parameter, shadowed, handedOn, fixed]) {
    print([formal, member, shadowed, this.shadowed]);
  }
}

main() {
  var c = new C('parameter', 'parameter too', 'formal');
  print([c.declared, c.shadowed, c.handed, c.own]);
  print(c.given);
  print(c.initial);
  print(c.ofFormal);
  print(c.ofMember);
}
