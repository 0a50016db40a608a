"""Places in a file as a reader sees them: line and column from 1, and the line itself with a mark under the place."""
from corr_report import Bad, Unread, plain, read_game

WIDEST = 100  # the most signs that are shown of a line


def line_and_column(data, at):
    """The place of a byte; columns count characters."""
    begin = data.rfind(b"\n", 0, at) + 1
    return data.count(b"\n", 0, begin) + 1, len(_letters(data[begin:at])) + 1


def head(path, data, at):
    """Where a byte is, as the first words of a line about it."""
    number, column = line_and_column(data, at)
    return f"{path}: line {number}, column {column}{', the end of the file' if at == len(data) else ''}"


def marked(data, at):
    """The line of a byte with a mark under it; of a long line the part around the mark."""
    begin = data.rfind(b"\n", 0, at) + 1
    end = data.find(b"\n", at)
    before = plain(_letters(data[begin:at]))
    text = before + plain(_letters(data[at : len(data) if end < 0 else end])).rstrip()
    first = max(0, len(before) - WIDEST // 2) if len(text) > WIDEST else 0
    return f"  {text[first : first + WIDEST]}\n  {' ' * (len(before) - first)}^\n"


def _letters(data):
    return data.decode("utf-8", "replace")


def stop(data):
    """The byte at which a game file stops being one, and what was to come there; none where it is one."""
    try:
        read_game(data)
    except Unread as found:
        return found.at, found.awaited
    return None


def within(path, data, at):
    """The byte itself, which has to be in the file or at its end."""
    if at > len(data):
        raise Bad(f"{path} has {len(data)} bytes, and so no byte {at}")
    return at
