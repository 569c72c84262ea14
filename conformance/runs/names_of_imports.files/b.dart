var shared = 'shared of b';
var hidden = 'hidden of b';

class Thing {
  _secret() => 'secret of b';
  open() => _secret();
  toString() => 'thing of b';
}

_private() => 'private to b';
