"""The language of bodies: a text's tokens, where a text is stuck and what may stand there, and what
each name of a text is.

`tokens` and `read_body` follow docs/LANGUAGE.md. `read_body` gives the first place at which a text is
no sentence; the names of a sentence are told by their roles, for others to look up."""

import re
from dataclasses import dataclass, field

KEYWORDS = "let produce for in if else call fail get all new len true false null self static add print return".split()
NAME = re.compile(r"[A-Za-z][A-Za-z0-9_]{0,63}")
NUMBER = re.compile(r"-?[1-9][0-9]*|0")
SIGN = re.compile(r"==|&&|[;,.:()\[\]{}=<+!]")
TEXT = re.compile(r'"(?:[^"\\\x00-\x1f]|\\["\\nt]|\\u\{([0-9A-Fa-f]{1,6})\})*"')
BLANK = re.compile(r"[ \t\r\n]*")
ESCAPE = re.compile(r'\\(?:(["\\nt])|u\{([0-9A-Fa-f]{1,6})\})')
OPENING = ("(", "[", "{", "!", "len")
DEEPEST = 64
METHOD_WORDS = ("print", "return", "add", "static", "self")
METHOD_STATEMENTS = ("let", "for", "if", "fail", *METHOD_WORDS)
STEP_STATEMENTS = ("let", "for", "if", "fail", "produce", "call")
STEP_WORDS = ("produce", "call", "get", "all")


@dataclass
class Token:
    """A piece of a body from `start` to `end`; its kind is name, number, text, sign, keyword, wrong or end."""

    kind: str
    text: str
    start: int
    end: int

    def value(self):
        """What a token of the kind text says."""
        return ESCAPE.sub(unescape, self.text[1:-1])

    def shown(self):
        return "the end of the text" if self.kind == "end" else f"`{self.text}`"


def unescape(found):
    letter, digits = found.groups()
    return chr(int(digits, 16)) if digits else {"n": "\n", "t": "\t"}.get(letter, letter)


def is_scalar(digits):
    return int(digits, 16) <= 0x10FFFF and not 0xD800 <= int(digits, 16) < 0xE000


def number_at(text, at):
    """The longest whole number of 64 bits that begins there, or None."""
    found = NUMBER.match(text, at)
    if not found:
        return None
    word = found.group()
    while not -(2**63) <= int(word) < 2**63:
        word = word[:-1]
    return word


def token_at(text, at):
    """The token that begins at a character that is no space."""
    name = NAME.match(text, at)
    if name:
        word = name.group()
        return Token("keyword" if word in KEYWORDS else "name", word, at, name.end())
    number = number_at(text, at)
    if number:
        return Token("number", number, at, at + len(number))
    quoted = TEXT.match(text, at)
    if quoted and all(is_scalar(it.group(2)) for it in ESCAPE.finditer(quoted.group()) if it.group(2)):
        return Token("text", quoted.group(), at, quoted.end())
    sign = SIGN.match(text, at)
    if sign:
        return Token("sign", sign.group(), at, sign.end())
    return Token("wrong", text[at], at, at + 1)


def tokens(text):
    """The tokens of a body. The last one is the end of the text, or what begins no token."""
    found, at = [], BLANK.match(text).end()
    while at < len(text):
        found.append(token_at(text, at))
        if found[-1].kind == "wrong":
            return found
        at = BLANK.match(text, found[-1].end).end()
    found.append(Token("end", "", len(text), len(text)))
    return found


@dataclass
class Use:
    """What the name at a token is. The role is one of variable, let, for, item, recorder, method, bean,
    bean field, field, static, self field; `owner` is what it belongs to: the word before an item
    (`get`, `all`, `produce`), a method's recorder, a field's bean. `scope` has the variables there."""

    token: int
    role: str
    name: str
    owner: str = ""
    scope: tuple = ()
    arguments: int = 0


@dataclass
class Reading:
    """The tokens of a body with the roles of its names. `stuck` is the number of the token at which
    the text is no sentence, None where it is one; then `expected` says what may stand there."""

    tokens: list
    uses: list = field(default_factory=list)
    stuck: int = None
    word: str = ""
    expected: list = field(default_factory=list)

    def use_at(self, token):
        """The role of the name at a token, or None."""
        return next((it for it in self.uses if it.token == token), None)

    def names(self, role, owner=None):
        """The names of a role, in order."""
        return [it.name for it in self.uses if it.role == role and owner in (None, it.owner)]


class Stuck(Exception):
    """The text is no sentence."""


class BodyReader:
    """Reads a body from left to right; the next token alone says what comes next."""

    def __init__(self, text, is_method, params=()):
        self.reading = Reading(tokens(text))
        self.at = 0
        self.open = 0
        self.is_method = is_method
        self.scope = list(params)
        self.expected = []

    def next(self):
        return self.reading.tokens[self.at]

    def is_next(self, *texts):
        """Whether one of these signs or keywords comes next; they are remembered as what may stand here."""
        self.expected.append(texts)
        token = self.next()
        return token.text in texts and token.kind in ("sign", "keyword")

    def is_kind(self, kind, shown):
        self.expected.append(shown)
        return self.next().kind == kind

    def forward(self):
        """Goes on behind the next token, which must not lie too deep."""
        token = self.next()
        if token.kind in ("sign", "keyword") and token.text in OPENING and self.open >= DEEPEST:
            self.stop("too deep")
        self.expected = []
        self.at += 1
        return self.at - 1

    def stop(self, word=None):
        self.reading.stuck = self.at
        self.reading.word = word or ("wrong token" if self.next().kind == "wrong" else "syntax")
        shown = [text for it in self.expected for text in ([it] if isinstance(it, str) else [f"`{text}`" for text in it])]
        self.reading.expected = list(dict.fromkeys(shown))
        raise Stuck

    def need(self, text):
        if not self.is_next(text):
            self.stop()
        return self.forward()

    def name(self, role, shown, owner=""):
        """A name with its role; gives its use."""
        if not self.is_kind("name", shown):
            self.stop()
        use = Use(self.at, role, self.next().text, owner, tuple(self.scope))
        self.forward()
        self.reading.uses.append(use)
        return use

    def read(self):
        try:
            while self.next().kind != "end":
                self.statement()
        except Stuck:
            pass
        return self.reading

    def block(self):
        self.need("{")
        self.open += 1
        kept = len(self.scope)
        while not self.is_next("}"):
            self.statement()
        self.forward()
        self.open -= 1
        del self.scope[kept:]

    def statement(self):
        if self.is_next(*(METHOD_STATEMENTS if self.is_method else STEP_STATEMENTS)):
            word = self.next().text
            if word == "call":
                return self.call_statement()
            self.forward()
            getattr(self, f"{word}_statement")()
        elif self.is_method and self.is_kind("name", "a variable"):
            self.name("variable", "a variable")
            self.set_field("field")
        else:
            self.stop()

    def let_statement(self):
        use = self.name("let", "a name")
        self.need("=")
        if not self.is_method and self.is_next("call"):
            self.call()
        else:
            self.expression()
        self.need(";")
        self.scope.append(use.name)

    def call_statement(self):
        self.call()
        self.need(";")

    def call(self):
        self.forward()
        recorder = self.name("recorder", "a recorder").name
        self.need(".")
        method = self.name("method", "a method", recorder)
        self.need("(")
        self.open += 1
        method.arguments = self.several(")")
        self.open -= 1

    def several(self, closing):
        """Expressions with commas between them, up to the closing sign; gives how many."""
        count = 0
        if not self.is_next(closing):
            self.expression()
            count = 1
            while self.is_next(","):
                self.forward()
                self.expression()
                count += 1
        self.need(closing)
        return count

    def produce_statement(self):
        self.name("item", "an item", "produce")
        self.need("(")
        self.open += 1
        self.expression()
        self.need(")")
        self.open -= 1
        self.need(";")

    def for_statement(self):
        use = self.name("for", "a name")
        self.need("in")
        self.expression()
        self.scope.append(use.name)
        self.block()
        self.scope.pop()

    def if_statement(self):
        self.expression()
        self.block()
        if self.is_next("else"):
            self.forward()
            self.block()

    def fail_statement(self):
        self.expression()
        self.need(";")

    print_statement = return_statement = fail_statement

    def add_statement(self):
        self.need("(")
        self.open += 1
        self.expression()
        self.need(",")
        self.expression()
        self.need(")")
        self.open -= 1
        self.need(";")

    def static_statement(self):
        self.set_field("static")

    def self_statement(self):
        self.set_field("self field")

    def set_field(self, role):
        self.need(".")
        self.name(role, "a field")
        self.need("=")
        self.expression()
        self.need(";")

    def expression(self):
        self.comparison()
        while self.is_next("&&"):
            self.forward()
            self.comparison()

    def comparison(self):
        self.sum()
        if self.is_next("==", "<"):
            self.forward()
            self.sum()

    def sum(self):
        self.unary()
        while self.is_next("+"):
            self.forward()
            self.unary()

    def unary(self):
        if self.is_next("!", "len"):
            self.forward()
            self.open += 1
            self.unary()
            self.open -= 1
            return
        own = self.primary()
        while self.is_next("."):
            self.forward()
            self.name("self field" if own else "field", "a field")
            own = False

    def primary(self):
        """One primary; gives whether it is `self`, whose fields are the recorder's."""
        if self.is_next("null", "true", "false") or self.is_kind("number", "a number") or self.is_kind("text", "a text"):
            self.forward()
        elif self.is_kind("name", "a variable"):
            self.name("variable", "a variable")
        elif self.is_next("("):
            self.forward()
            self.open += 1
            self.expression()
            self.need(")")
            self.open -= 1
        elif self.is_next("["):
            self.forward()
            self.open += 1
            self.several("]")
            self.open -= 1
        elif self.is_next("new"):
            self.new()
        elif not self.is_method and self.is_next("get", "all"):
            word = self.next().text
            self.forward()
            self.name("item", "an item", word)
        elif self.is_method and self.is_next("self"):
            self.forward()
            return True
        elif self.is_method and self.is_next("static"):
            self.forward()
            self.need(".")
            self.name("static", "a static")
        else:
            self.stop()
        return False

    def new(self):
        self.forward()
        bean = self.name("bean", "a bean").name
        self.need("{")
        self.open += 1
        if not self.is_next("}"):
            self.bean_field(bean)
            while self.is_next(","):
                self.forward()
                self.bean_field(bean)
        self.need("}")
        self.open -= 1

    def bean_field(self, bean):
        self.name("bean field", "a field", bean)
        self.need(":")
        self.expression()


def read_body(text, is_method=False, params=()):
    """What a body's text is, by its tokens."""
    return BodyReader(text, is_method, params).read()
