import 'a.dart' deferred as a;
