import 'd.dart';
