class Event {
  final name, data;
  var stopped = false;
  Event(this.name, [this.data]);
  void stop() {
    stopped = true;
  }
}

class Emitter {
  final Map<String, List> _listeners = {};
  on(String name, listener(Event e)) {
    if (!_listeners.containsKey(name)) _listeners[name] = [];
    _listeners[name].add(listener);
    return () {
      var list = _listeners[name];
      list.removeAt(list.indexOf(listener));
    };
  }
  emit(name, [data]) {
    var event = new Event(name, data), count = 0;
    if (!_listeners.containsKey(name)) return count;
    for (var listener in _listeners[name].toList()) {
      listener(event);
      count++;
      if (event.stopped) break;
    }
    return count;
  }
}

abstract class Command {
  void redo();
  void undo();
}

class Append implements Command {
  final Document document;
  final String text;
  Append(this.document, this.text);
  void redo() {
    document.text += text;
  }
  void undo() {
    document.text = document.text.substring(0, document.text.length - text.length);
  }
}

class Clear implements Command {
  final Document document;
  String _before;
  Clear(this.document);
  void redo() {
    _before = document.text;
    document.text = '';
  }
  void undo() {
    document.text = _before;
  }
}

class Document extends Emitter {
  String _text = '';
  final _done = [], _undone = [];
  String get text => _text;
  void set text(String value) {
    var before = _text;
    _text = value;
    if (before != value) emit('changed', {'from': before, 'to': value});
  }
  void run(Command command) {
    command.redo();
    _done.add(command);
    _undone.clear();
  }
  bool undo() => _move(_done, _undone, (c) => c.undo());
  bool redo() => _move(_undone, _done, (c) => c.redo());
  bool _move(List from, List to, move(Command c)) {
    if (from.isEmpty) return false;
    var command = from.removeLast();
    move(command);
    to.add(command);
    return true;
  }
}

class Log {
  final lines = [];
  void write(Event e) {
    lines.add('${e.data['from']}>${e.data['to']}');
  }
}

main() {
  var document = new Document(), log = new Log(), off = document.on('changed', log.write);
  document.run(new Append(document, 'ab'));
  document.run(new Append(document, 'c'));
  document.run(new Clear(document));
  print([document.undo(), document.undo(), document.text]);
  print([document.redo(), document.text]);
  document.run(new Append(document, '!'));
  print([document.redo(), document.text]);
  print(log.lines);
  off();
  document.text = 'x';
  print(log.lines.length);
  var emitter = new Emitter(), seen = [];
  emitter.on('e', (e) => seen.add('first ${e.data}'));
  emitter.on('e', (e) {
    seen.add('second');
    if (e.data == null) e.stop();
  });
  var third = emitter.on('e', (e) => seen.add('third'));
  print([emitter.emit('e', 5), emitter.emit('e'), emitter.emit('f')]);
  third();
  print(emitter.emit('e', 6));
  print(seen);
  try {
    third();
  } catch (error) {
    print(error);
  }
}
