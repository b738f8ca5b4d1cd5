"""The words of a line and of a tag list, how they are spelled, and the faults of replies."""
import re


class Refused(Exception):
    pass


BAD_INDEX, NONE_TAGGED, BAD_COMMAND, NO_TAG, NO_MARK, BAD_OPTION, BAD_NAME, BAD_QUOTING, NO_FILE = (
    "! 2 BadIndex", "! 3 NoneTagged", "! 4 BadCommand", "! 7 NoTag", "! 8 NoMark", "! 9 BadOption", "! 14 BadName", "! 19 BadQuoting", "! 20 NoFile")
BACKWARDS_RANGE, EMPTY_PATTERN = "! 10 BackwardsRange", "! 11 EmptyPattern"
NOTHING_TO_UNDO, NOTHING_TO_REDO = "! 12 NothingToUndo", "! 13 NothingToRedo"


def words_of(text):
    """The words of a tag list."""
    words, i = [], 0
    while True:
        while i < len(text) and text[i] in " \t\n":
            i += 1
        if i == len(text):
            return words
        word = ""
        if text[i] == '"':
            i += 1
            while i < len(text) and text[i] != '"':
                if text[i] == "\\":
                    i += 1
                    if i == len(text) or text[i] not in "ntr\\\"":
                        raise Refused(BAD_QUOTING)
                    word += {"n": "\n", "t": "\t", "r": "\r"}.get(text[i], text[i])
                else:
                    word += text[i]
                i += 1
            if i == len(text):
                raise Refused(BAD_QUOTING)
            i += 1
        elif text[i] == "{":
            depth, start = 0, i + 1
            while i < len(text):
                depth += {"{": 1, "}": -1}.get(text[i], 0)
                i += 1
                if depth == 0:
                    break
            if depth:
                raise Refused(BAD_QUOTING)
            word = text[start:i - 1]
        else:
            while i < len(text) and text[i] not in " \t\n":
                word, i = word + text[i], i + 1
            words.append(word)
            continue
        if i < len(text) and text[i] not in " \t\n":
            raise Refused(BAD_QUOTING)
        words.append(word)


def spelled(word):
    """A word as scripts and replies write it."""
    if word and not re.search(r'[ \t\n\r"\\{}]', word):
        return word
    escapes = {"\n": "\\n", "\t": "\\t", "\r": "\\r", "\\": "\\\\", '"': '\\"'}
    return '"' + "".join(escapes.get(c, c) for c in word) + '"'
