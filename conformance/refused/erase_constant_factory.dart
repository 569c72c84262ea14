class C { const factory C() = D; }
