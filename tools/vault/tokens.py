"""The tokens of a Vault text, as docs/LANGUAGE.md lists them."""
from __future__ import annotations

import re
from typing import Iterator, List, NamedTuple, Tuple

KEYWORDS = (
    "abstract adopt as become bool break case continue else extern false focus if input int into more new open print release "
    "return stateset struct swap switch tracked true variant void while"
).split()
SIGNS = "{ } ( ) [ ] < > , ; : . @ -> = + - * / % ! & | ^ && || == != <= >=".split()
RESERVED = frozenset(KEYWORDS)
# what a name is surely longer by; other characters are looked at one by one
PLAIN_NAME = re.compile("[A-Za-z0-9_]*")
BLANKS = re.compile("[ \t\r\n]*")
LONG_SIGNS = tuple(sign for sign in SIGNS if len(sign) == 2)
# blanks, and a comment or a token of ASCII that no other character can make longer; a group for each kind
PLAIN = re.compile(
    r"[ \t\r\n]*(?:([A-Za-z_][A-Za-z0-9_]*)(?![A-Za-z0-9_]|[^\x00-\x7f])|('[A-Za-z_][A-Za-z0-9_]*)(?![A-Za-z0-9_]|[^\x00-\x7f])"
    r"|([0-9]+)|(//[^\n]*|/\*(?s:.*?)(?:\*/|\Z))|(" + "|".join(re.escape(sign) for sign in sorted(SIGNS, key=len, reverse=True)) + "))"
)
PLAIN_KINDS = ("", "name", "tick", "number", "comment", "sign")


class Token(NamedTuple):
    """A token: its kind (`name`, `keyword`, `tick`, `number`, `sign`, `end` or `other`), and the characters that it takes."""

    kind: str
    text: str
    start: int
    end: int

    def is_sign(self, *texts: str) -> bool:
        return self.kind == "sign" and self.text in texts

    def is_keyword(self, *texts: str) -> bool:
        return self.kind == "keyword" and self.text in texts


def starts_name(character: str) -> bool:
    return character.isidentifier()


def continues_name(character: str) -> bool:
    return ("a" + character).isidentifier()


def name_end(text: str, at: int) -> int:
    """The end of the name that begins at a character."""
    at = PLAIN_NAME.match(text, at).end()
    while at < len(text) and continues_name(text[at]):
        at += 1
    return at


def comment_end(text: str, at: int) -> int:
    """The end of the comment that begins at a character; of one that isn't closed it is the text's end."""
    closing, more = ("\n", 0) if text[at + 1] == "/" else ("*/", 2)
    found = text.find(closing, at + 2)
    return len(text) if found < 0 else found + more


def read_token(text: str, at: int) -> Token:
    """The token at a character that is no blank and begins no comment."""
    first = text[at]
    if starts_name(first):
        end = name_end(text, at)
        word = text[at:end]
        return Token("keyword" if word in RESERVED else "name", word, at, end)
    if first in "0123456789":
        end = at
        while end < len(text) and text[end] in "0123456789":
            end += 1
        return Token("number", text[at:end], at, end)
    if first == "'" and at + 1 < len(text) and starts_name(text[at + 1]):
        end = name_end(text, at + 1)
        return Token("tick", text[at:end], at, end)
    for sign in LONG_SIGNS:
        if text.startswith(sign, at):
            return Token("sign", sign, at, at + 2)
    return Token("sign" if first in SIGNS else "other", first, at, at + 1)


def scan(text: str) -> Iterator[Token]:
    """The tokens and comments of a text, in order; a comment is a token of the kind `comment`."""
    at = 0
    while True:
        met = PLAIN.match(text, at)
        if met and met.lastindex:
            word, kind = met.group(met.lastindex), PLAIN_KINDS[met.lastindex]
            token = Token("keyword" if kind == "name" and word in RESERVED else kind, word, met.start(met.lastindex), met.end())
        else:
            at = BLANKS.match(text, at).end()
            if at == len(text):
                return
            token = read_token(text, at)
        yield token
        at = token.end


def tokens(text: str) -> List[Token]:
    """The tokens of a text without its comments, and one more of the kind `end`."""
    found = [token for token in scan(text) if token.kind != "comment"]
    return [*found, Token("end", "", len(text), len(text))]


def comments(text: str) -> List[Tuple[int, int]]:
    """Where the comments of a text begin and end."""
    return [(token.start, token.end) for token in scan(text) if token.kind == "comment"]
