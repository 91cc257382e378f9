"""How the texts of a row are written: a tab as an arrow, and bytes that a text file hides as escapes."""
import re

TAB = "→"
UNENDED = "\\ No newline at end of file"
SIMPLE = {"\\": b"\\", "n": b"\n", "r": b"\r", "t": b"\t", ")": b")"}
ESCAPE = re.compile(r"\\(?:x(?P<byte>[0-9a-f]{2})|u\{(?P<character>[0-9a-f]{1,6})\}|(?P<times>[0-9]+)\(|(?P<simple>[\\nrt)]))")


class BadRow(Exception):
    """A row that cannot be read, with the line at which it is wrong."""

    def __init__(self, line, reason):
        super().__init__(reason)
        self.line = line
        self.reason = reason


def read_escapes(text, line, position=0, is_inner=False):
    """The bytes that a text with escapes stands for, from a position to the end (or to the `)` that ends a repeated text), and the position behind them."""
    out = bytearray()
    while position < len(text):
        if is_inner and text[position] == ")":
            return bytes(out), position + 1
        if text[position] != "\\":
            out += text[position].encode()
            position += 1
            continue
        found = ESCAPE.match(text, position)
        if not found:
            raise BadRow(line, f"no escape: {text[position:position + 8]!r}")
        position = found.end()
        if found["byte"]:
            out.append(int(found["byte"], 16))
        elif found["character"]:
            out += chr(int(found["character"], 16)).encode()
        elif found["times"]:
            repeated, position = read_escapes(text, line, position, True)
            out += repeated * int(found["times"])
        else:
            out += SIMPLE[found["simple"]]
    if is_inner:
        raise BadRow(line, "a repeated text without its )")
    return bytes(out), position


def read_text(lines, line, has_escapes):
    """The bytes of lines of which the first stands at `line`; each ends with LF, but where a mark or a backslash says otherwise."""
    out = bytearray()
    for place, text in enumerate(lines):
        if text == UNENDED:
            if place + 1 < len(lines) or not out.endswith(b"\n"):
                raise BadRow(line + place, "this mark stands behind the last line of a text")
            return bytes(out[:-1])
        text = text.replace(TAB, "\t")
        if not has_escapes:
            out += text.encode() + b"\n"
            continue
        joins = re.search(r"(?<!\\)(\\\\)*\\$", text)
        out += read_escapes(text[:-1] if joins else text, line + place)[0]
        out += b"" if joins else b"\n"
    return bytes(out)


def read_words(text, line, has_escapes):
    """The bytes of a text within a line, as of a path."""
    return read_text([text], line, has_escapes)[:-1]


def is_plain(data):
    """Whether a text shows all of its bytes without escapes."""
    try:
        text = data.decode()
    except UnicodeDecodeError:
        return False
    return all(sign in "\n\t" or sign.isprintable() for sign in text) and TAB not in text


def escaped(data):
    out = []
    for sign in data.decode(errors="surrogateescape"):
        code = ord(sign)
        if 0xDC80 <= code <= 0xDCFF:
            out.append(f"\\x{code - 0xDC00:02x}")
        elif sign == "\\":
            out.append("\\\\")
        elif sign == "\t":
            out.append(TAB)
        elif sign == TAB or not sign.isprintable() and code >= 128:
            out.append(f"\\u{{{code:x}}}")
        elif not sign.isprintable():
            out.append({"\r": "\\r"}.get(sign, f"\\x{code:02x}"))
        else:
            out.append(sign)
    return "".join(out)


def show_text(data, with_escapes):
    """The lines in which a row has these bytes."""
    if not data:
        return []
    lines = data.split(b"\n")
    ended = lines[-1] == b""
    if ended:
        lines.pop()
    if with_escapes:
        return [escaped(text) for text in lines[:-1]] + [escaped(lines[-1]) + ("" if ended else "\\")]
    return [text.decode().replace("\t", TAB) for text in lines] + ([] if ended else [UNENDED])
