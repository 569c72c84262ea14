class Shadowed {}

class HandedOn {}

typedef Declared Make<Declared, Shadowed>(Shadowed value, value, [HandedOn last]);

int make(String value, other, [HandedOn last]) => 1;

main() {
  Make<int, String> made = make;
  print(made('a', 'b', new HandedOn()));
  Shadowed plain = new Shadowed();
  print(plain is Shadowed);
  try {
    Make<int, Shadowed> wrong = make;
  } catch (error) {
    print(error);
  }
}
