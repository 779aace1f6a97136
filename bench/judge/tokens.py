"""The tokens of a module's text.

A text is cut into tokens from left to right. What a character may begin depends on where it
stands: in code, inside a tag, between tags, or inside a closing tag. A stack of these contexts
is all that the cutting remembers, beside the token before.
"""

import re
from typing import NamedTuple

RESERVED = frozenset(
    "arguments await break case catch class const continue debugger default delete do else enum "
    "eval export extends false finally for function if implements import in instanceof interface "
    "let new null package private protected public return static super switch this throw true try "
    "typeof undefined var void while with yield".split()
)
GREATEST_INT = 9007199254740991

# Puncts of code, the longer ones first.
PUNCTS = re.compile(r"===|!==|=>|<=|>=|&&|\|\||\?\?|\+=|-=|\*=|\+\+|--|[{}()\[\],;=?:<>+\-*%!./]")
BEFORE_JSX = frozenset(["(", ",", "=", "=>", "?", ":", "&&", "||", "??", "{", "["])

BLANKS = re.compile(r"(?:[ \t\n\r]+|//[^\n]*|/\*(?:[^*]|\*(?!/))*\*/)*")
ASCII_RUN = re.compile(r"[A-Za-z0-9_$]*")
INT = re.compile(r"0|[1-9][0-9]*")
ESCAPE = r"\\(?:[nrt\\'\"`$]|u[0-9A-Fa-f]{4}|u\{[0-9A-Fa-f]+\})"
TEXTS = {
    "'": re.compile(r"'((?:[^'\\\n\r]|" + ESCAPE + r")*)'"),
    '"': re.compile(r'"((?:[^"\\\n\r]|' + ESCAPE + r')*)"'),
}
ATTRIBUTE_TEXTS = {"'": re.compile(r"'([^']*)'"), '"': re.compile(r'"([^"]*)"')}
TEMPLATE = re.compile(r"((?:[^`\\$]|\$(?!\{)|" + ESCAPE + r")*)(`|\$\{)")
TAG_NAME = re.compile(r"[A-Za-z][A-Za-z0-9:-]*\$?")
JSX_RUN = re.compile(r"[^{<>}]+")
ANY_ESCAPE = re.compile(ESCAPE)
SIMPLE = {"n": "\n", "r": "\r", "t": "\t"}


class Token(NamedTuple):
    """One token: its kind, its meaning (spelling, number or decoded text) and its place in characters.

    Kinds: name, word (a reserved one), int, text, template, punct, jsx (a `<` or `<>` that begins
    an element), tagname, attrtext, jsxtext.
    """

    kind: str
    value: object
    start: int
    end: int


class Lexical(Exception):
    """No token begins at this character."""

    def __init__(self, at):
        super().__init__(at)
        self.at = at


class NotScalar(Exception):
    """An escape names no scalar value."""


def continues_name(character):
    """Whether the character may stand inside a name."""
    return character == "$" or ("_" + character).isidentifier()


def begins_name(character):
    """Whether the character may begin a name."""
    return character in "_$" or character.isidentifier()


def name_run_end(text, at):
    """The end of the run of name characters that begins at this place."""
    end = ASCII_RUN.match(text, at).end()
    while end < len(text) and text[end] > "\x7f" and continues_name(text[end]):
        end = ASCII_RUN.match(text, end + 1).end()
    return end


def decode_escape(match):
    """The character that one escape stands for."""
    body = match.group()[1:]
    if body[0] != "u":
        return SIMPLE.get(body, body)
    scalar = int(body[1:].strip("{}"), 16)
    if scalar > 0x10FFFF or 0xD800 <= scalar <= 0xDFFF:
        raise NotScalar
    return chr(scalar)


def decode(raw):
    """The text that stands between the quotes, its escapes decoded."""
    return ANY_ESCAPE.sub(decode_escape, raw) if "\\" in raw else raw


def decode_template(raw):
    """The text of a part of a template: raw line ends count as line feeds."""
    return decode(raw.replace("\r\n", "\n").replace("\r", "\n"))


ENTITIES = {"&amp;": "&", "&lt;": "<", "&gt;": ">", "&quot;": '"', "&nbsp;": "\u00a0"}
ENTITY = re.compile("|".join(ENTITIES))


def decode_entities(raw):
    """The five entities decoded, once; any other ampersand stands for itself."""
    return ENTITY.sub(lambda found: ENTITIES[found.group()], raw)


def jsx_text(raw):
    """The text of a run between tags."""
    lines = raw.replace("\r\n", "\n").replace("\t", " ").split("\n")
    last = len(lines) - 1
    trimmed = []
    for number, line in enumerate(lines):
        if number > 0:
            line = line.lstrip(" ")
        if number < last:
            line = line.rstrip(" ")
        if line:
            trimmed.append(line)
    return decode_entities(" ".join(trimmed))


class Cutter:
    """Cuts one text. `contexts` has the open ones, the innermost last.

    `code` is the module itself, `brace` a brace of code, `hole` a template's hole, `expression` a
    brace of a tag or between tags, `tag` an opening tag, `children` what stands between two
    tags, `close` a closing tag.
    """

    def __init__(self, text):
        self.text = text
        self.at = 0
        self.contexts = ["code"]
        self.tokens = []

    def cut(self):
        """All tokens of the text."""
        steps = {"tag": self.in_tag, "children": self.in_children, "close": self.in_close}
        while self.skip_blanks():
            steps.get(self.contexts[-1], self.in_code)()
        return self.tokens

    def skip_blanks(self):
        """Goes past blanks and comments, where they mean nothing; whether something is left."""
        if self.contexts[-1] != "children":
            self.at = BLANKS.match(self.text, self.at).end()
            if self.text.startswith("/*", self.at):
                raise Lexical(self.at)
        return self.at < len(self.text)

    def put(self, kind, value, end):
        """Appends a token that ends here."""
        self.tokens.append(Token(kind, value, self.at, end))
        self.at = end

    def in_code(self):
        """One token of code."""
        character = self.text[self.at]
        if character in TEXTS:
            self.quoted(TEXTS[character], "text", decode)
        elif character == "`":
            self.contexts.append("hole")
            self.template_part()
        elif character == "}" and self.contexts[-1] == "hole":
            self.template_part()
        elif begins_name(character) or character.isdigit():
            self.name_or_int()
        elif character == "<" and self.begins_jsx():
            self.open_element()
        else:
            self.punct()

    def quoted(self, pattern, kind, decoding):
        """A text between quotes."""
        match = pattern.match(self.text, self.at)
        if not match:
            raise Lexical(self.at)
        try:
            self.put(kind, decoding(match.group(1)), match.end())
        except NotScalar:
            raise Lexical(self.at) from None

    def template_part(self):
        """From a backquote, or the brace that closes a hole, up to the next hole or the end."""
        match = TEMPLATE.match(self.text, self.at + 1)
        if not match:
            raise Lexical(self.at)
        first, opens = self.text[self.at] == "`", match.group(2) == "${"
        if not opens:
            self.contexts.pop()
        try:
            self.put("template", (decode_template(match.group(1)), first, opens), match.end())
        except NotScalar:
            raise Lexical(self.at) from None

    def name_or_int(self):
        """A name, a reserved word or an Int: the whole run of name characters."""
        end = name_run_end(self.text, self.at)
        run = self.text[self.at : end]
        if begins_name(run[0] if run else "0"):
            self.put("word" if run in RESERVED else "name", run, end)
        elif INT.fullmatch(run) and len(run) < 17 and int(run) <= GREATEST_INT:
            self.put("int", int(run), end)
        else:
            raise Lexical(self.at)

    def begins_jsx(self):
        """Whether a `<` here begins JSX: by the token before it."""
        if not self.tokens:
            return False
        before = self.tokens[-1]
        if before.kind == "punct":
            return before.value in BEFORE_JSX
        return before.kind == "word" and before.value == "return"

    def open_element(self):
        """The `<` or `<>` that begins an element or a fragment."""
        if self.text.startswith("<>", self.at):
            self.contexts.append("children")
            self.put("jsx", "<>", self.at + 2)
        else:
            self.contexts.append("tag")
            self.put("jsx", "<", self.at + 1)

    def punct(self):
        """A punct of code; braces open and close contexts."""
        match = PUNCTS.match(self.text, self.at)
        if not match:
            raise Lexical(self.at)
        spelling = match.group()
        if spelling == "{":
            self.contexts.append("brace")
        elif spelling == "}" and len(self.contexts) > 1:
            self.contexts.pop()
        self.put("punct", spelling, match.end())

    def in_tag(self):
        """One token of an opening tag."""
        character = self.text[self.at]
        if character in ATTRIBUTE_TEXTS:
            self.quoted(ATTRIBUTE_TEXTS[character], "attrtext", decode_entities)
        elif character == "=":
            self.put("punct", "=", self.at + 1)
        elif character == "{":
            self.contexts.append("expression")
            self.put("punct", "{", self.at + 1)
        elif character == ">":
            self.contexts[-1] = "children"
            self.put("punct", ">", self.at + 1)
        elif self.text.startswith("/>", self.at):
            self.contexts.pop()
            self.put("punct", "/>", self.at + 2)
        else:
            self.tag_name()

    def tag_name(self):
        """A tag's or attribute's name."""
        match = TAG_NAME.match(self.text, self.at)
        if not match:
            raise Lexical(self.at)
        self.put("tagname", match.group(), match.end())

    def in_close(self):
        """One token of a closing tag."""
        if self.text[self.at] == ">":
            self.contexts.pop()
            self.put("punct", ">", self.at + 1)
        else:
            self.tag_name()

    def in_children(self):
        """One token between two tags."""
        if self.text.startswith("</>", self.at):
            self.contexts.pop()
            self.put("punct", "</>", self.at + 3)
        elif self.text.startswith("</", self.at):
            self.contexts[-1] = "close"
            self.put("punct", "</", self.at + 2)
        elif self.text[self.at] == "<":
            self.open_element()
        elif self.text[self.at] == "{":
            self.contexts.append("expression")
            self.put("punct", "{", self.at + 1)
        else:
            self.jsx_run()

    def jsx_run(self):
        """A run of text between two tags."""
        match = JSX_RUN.match(self.text, self.at)
        if not match:
            raise Lexical(self.at)
        self.put("jsxtext", match.group(), match.end())


def tokens(text):
    """The token list of a text, or Lexical."""
    return Cutter(text).cut()
