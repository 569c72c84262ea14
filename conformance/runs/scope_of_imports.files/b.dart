var declared = 'b', both = 'b';

class StringBuffer {
  toString() => 'b';
}
