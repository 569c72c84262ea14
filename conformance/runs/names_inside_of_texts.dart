var alone = 'library';
get computed => 'getter';
function() => 'function';

class Shown<T> {
  var field = 'field';
  method() => 'method';
  static var fixed = 'static';
  all(parameter) {
    var local = 'local';
    inner() => 'inner';
    return '$field $T $parameter $local $this ${this.field} ${method()} ${inner()} $alone $computed $Shown $fixed';
  }
  unknown() {
    try {
      return '$nowhere';
    } catch (error) {
      return '$error';
    }
  }
  toString() => 'shown';
}

class Answers {
  noSuchMethod(call) => '<${call.memberName}>';
  all() => '$one ${two} ${three(1)} ${this.four}';
}

main() {
  print(new Shown<int>().all('parameter'));
  print(new Shown().unknown());
  print(new Answers().all());
  print('$alone.length ${alone.length}');
  print('${'a ${'b ${'c'}'}'} ${{'key': 'value'}['key']} ${[1, 2].map((x) => '<$x>').join()}');
  print('${(() => 'called')()} ${(new Shown()..field = 'set').field} ${1 > 0 ? 'yes' : 'no'} ${function()}');
  print('${'}'} ${"{"} ${'\$'} ${r'$alone'} ${'\''}');
  print('a' "${'b'}" r'$c' 'd');
  var $1 = 'dollar', a$ = 'behind', a = 'only';
  print('${$1} ${a$} $a $a$a');
}
