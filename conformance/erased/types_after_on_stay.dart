f() { try { g(); } on Foo<int> catch (e, s) { rethrow; } finally { } }
