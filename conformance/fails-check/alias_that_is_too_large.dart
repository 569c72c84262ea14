typedef void A(int x, int y);
typedef void B(A x, A y);
typedef void C(B x, B y);
typedef void D(C x, C y);
typedef void E(D x, D y);
typedef void F(E x, E y);
typedef void G(F x, F y);
typedef void H(G x, G y);

main() {
  G g = 1;
  print(g);
  H h = (x, y) {};
  print('h');
  F f = 2;
}
