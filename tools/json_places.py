"""Where things stand in a JSON text: its first fault, and its keys."""
import json
import re

TOKEN = re.compile(rb'"(?:[^"\\]|\\.)*"|[{}\[\],:]|[^\s{}\[\],:"]+', re.S)
DEEPEST = 127  # arrays and objects in one another that the program reads


class NotJson(Exception):
    """What is wrong of a text, and the byte where."""


def no_constant(name):
    raise ValueError(f"`{name}` is no JSON value")


def fault_of(data):
    """What is wrong of a text that is no JSON, and the byte at which; or None where nothing is seen."""
    try:
        text = data.decode("utf-8")
    except UnicodeDecodeError as error:
        return "a byte that is no UTF-8 stands here", error.start
    try:
        json.loads(text, parse_constant=no_constant)
    except json.JSONDecodeError as error:
        return error.msg[:1].lower() + error.msg[1:], len(text[: error.pos].encode())
    except ValueError as error:
        name = re.search(r"`(.*)`", str(error))
        return str(error), data.find(name[1].encode()) if name else 0
    except RecursionError:
        pass
    depth = 0
    for token in TOKEN.finditer(data):
        depth += (token.group() in (b"{", b"[")) - (token.group() in (b"}", b"]"))
        if depth > DEEPEST:
            return f"over {DEEPEST} arrays and objects stand in one another", token.start()
    return None


def keys_of(data):
    """(path, byte) of each key of the objects of a JSON text; a path is the keys from the outermost object on."""
    found, path, before = [], [], None
    for token in TOKEN.finditer(data):
        mark = token.group()
        if mark in (b"{", b"["):
            path.append(None)
        elif mark in (b"}", b"]"):
            path.pop()
        elif mark == b":" and before and before.group().startswith(b'"'):
            path[-1] = json.loads(before.group().decode("utf-8", "replace"))
            found.append((tuple(path), before.start()))
        before = token
    return found


def key_at(data, *path):
    """The byte at which a key stands, the last one of those of that path, or None."""
    places = [place for keys, place in keys_of(data) if keys == path]
    return places[-1] if places else None
