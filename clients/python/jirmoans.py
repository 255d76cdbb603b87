#!/usr/bin/env python3
"""jirmoans.py LIBRARY FILE: writes the HTML of a Markdown file, by the library's shared object.

The class Preview is all that a program in Python needs: it says in ctypes what include/jirmoans.h says in C. `make c_library` makes bin/libjirmoans.so. What goes wrong
is said in a line, with the status 1.
"""
import ctypes
import sys
from ctypes import POINTER, Structure, byref, c_bool, c_char_p, c_size_t, c_uint32, c_void_p


class Fault(Structure):
    _fields_ = [('code', c_uint32), ('number', c_size_t)]


class Settings(Structure):
    _fields_ = [('unsafe_html', c_bool), ('breaks', c_uint32), ('max_containers', c_size_t), ('max_spans', c_size_t), ('pre_lang', c_bool), ('align_style', c_bool), ('full_info_string', c_bool), ('double_tilde', c_bool)]


class Handle(Structure):
    _fields_ = [('is_open', c_bool), ('session', c_void_p)]


class Changes(Structure):
    _fields_ = [('first', c_size_t), ('removed', c_size_t), ('added', c_size_t), ('again', POINTER(c_size_t)), ('again_len', c_size_t)]


class Text(Structure):
    _fields_ = [('at', c_void_p), ('len', c_size_t)]


CALLS = {
    'jirmoans_open': (Fault, [POINTER(Handle), POINTER(Settings), c_char_p, c_size_t]),
    'jirmoans_close': (None, [POINTER(Handle)]),
    'jirmoans_edit': (Fault, [POINTER(Handle), c_size_t, c_size_t, c_char_p, c_size_t, POINTER(Changes)]),
    'jirmoans_set_prelude': (Fault, [POINTER(Handle), c_char_p, c_size_t, POINTER(Changes)]),
    'jirmoans_piece': (Fault, [POINTER(Handle), c_size_t, POINTER(Text)]),
    'jirmoans_html': (Fault, [POINTER(Handle), c_char_p, c_size_t, POINTER(Text)]),
    'jirmoans_first_line': (Fault, [POINTER(Handle), c_size_t, POINTER(c_size_t)]),
    'jirmoans_units': (c_size_t, [POINTER(Handle)]),
    'jirmoans_lines': (c_size_t, [POINTER(Handle)]),
    'jirmoans_fault_name': (c_size_t, [c_uint32, c_char_p, c_size_t]),
    'jirmoans_fault_text': (c_size_t, [c_uint32, c_char_p, c_size_t]),
}


class Refused(Exception):
    """A call was refused: `name` and `number` are those of the protocol."""

    def __init__(self, name, number, text):
        super().__init__('%s (%s %d)' % (text, name, number))
        self.name, self.number = name, number


class Preview:
    """A text that is edited by lines, and its HTML in pieces."""

    def __init__(self, library, entities=b'', **settings):
        # A structure would take any name, and leave the field as it is.
        unknown = sorted(set(settings) - {name for name, _ in Settings._fields_})
        if unknown:
            raise TypeError('there is no setting %s; they are %s' % (', '.join(unknown), ', '.join(name for name, _ in Settings._fields_)))
        self.library = ctypes.CDLL(library)
        for name, (result, arguments) in CALLS.items():
            call = getattr(self.library, name)
            call.restype, call.argtypes = result, arguments
        self.handle = Handle()
        self._call('open', byref(Settings(**settings)), entities, len(entities))

    def close(self):
        self.library.jirmoans_close(byref(self.handle))

    def __enter__(self):
        return self

    def __exit__(self, *_):
        self.close()

    def edit(self, at, removed, text):
        """Replaces lines by those of a text. Answers which pieces went, how many came, and the numbers of those made again."""
        return self._changed('edit', at, removed, text, len(text))

    def set_prelude(self, text):
        return self._changed('set_prelude', text, len(text))

    def piece(self, unit):
        return self._shown('piece', unit)

    def html(self, text):
        """The HTML of a whole text."""
        return self._shown('html', text, len(text))

    def first_line(self, unit):
        line = c_size_t()
        self._call('first_line', unit, byref(line))
        return line.value

    def units(self):
        return self.library.jirmoans_units(byref(self.handle))

    def lines(self):
        return self.library.jirmoans_lines(byref(self.handle))

    def _changed(self, name, *arguments):
        changes = Changes()
        self._call(name, *arguments, byref(changes))
        return changes.first, changes.removed, changes.added, changes.again[:changes.again_len]

    def _shown(self, name, *arguments):
        text = Text()
        self._call(name, *arguments, byref(text))
        return ctypes.string_at(text.at, text.len)

    def _call(self, name, *arguments):
        fault = getattr(self.library, 'jirmoans_' + name)(byref(self.handle), *arguments)
        if fault.code:
            raise Refused(self._said('name', fault.code), fault.number, self._said('text', fault.code))

    def _said(self, what, code):
        room = ctypes.create_string_buffer(128)
        getattr(self.library, 'jirmoans_fault_' + what)(code, room, len(room))
        return room.value.decode()


def main():
    """Answers nothing, or what went wrong in a line."""
    if len(sys.argv) != 3:
        return 'usage: jirmoans.py LIBRARY FILE'
    library, name = sys.argv[1:]
    try:
        with open(name, 'rb') as file:
            text = file.read()
        with Preview(library) as preview:
            sys.stdout.buffer.write(preview.html(text))
            sys.stdout.flush()
    except Refused as refused:
        return f'jirmoans: {name}: {refused}'
    except OSError as fault:
        return f'jirmoans: {fault.filename}: {fault.strerror}' if fault.filename else f'jirmoans: {fault}'
    except AttributeError as fault:
        return f'jirmoans: {library} is another library: {fault}'
    return None


if __name__ == '__main__':
    sys.exit(main())
