f() => [this, super.x, null, true, false, new C(), const C(), a, 1, 'b', (c), [], {}, <int>[], -d, ~e, !f, ++g, --h, throw i];
