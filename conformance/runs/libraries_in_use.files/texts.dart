library texts;

import 'shapes.dart';
export 'shapes.dart' show describe;

shout(text) => '$text!';
whisper(text) => '($text) ${area(2, 2)}';
