"""What is wrong at one token of a body or of a method's body."""

from .body import METHOD_WORDS, STEP_WORDS
from .words import both, count, did_you_mean, either

# What is often meant by a character that begins no token.
MEANT = {
    "&": "`and` is written `&&`",
    "|": "there is no `or`: write an `if` with an `else`, or `!(!a && !b)`",
    "-": "there is no subtraction; a `-` stands directly before the digits of a number, and -0 is none",
    "'": "texts stand in double quotes",
    "/": "there are no comments and no division",
    "#": "there are no comments",
    ">": "`a > b` is written `b < a`",
    "*": "there is no multiplication",
    "%": "there is no remainder",
}
WRONG_ESCAPE = 'the text has a wrong escape; the escapes are `\\"`, `\\\\`, `\\n`, `\\t` and `\\u{H}`'
NOT_CLOSED = "the text isn't closed by a `\"`, or has a line end in it, which is written `\\n`"


class BodyTeller:
    """Tells what is wrong at one token of a body or a method's body."""

    def __init__(self, teller, number, word):
        self.teller = teller
        self.project = teller.project
        self.number = number
        self.word = word
        self.is_method = "methods" in teller.atoms
        self.owner = self.owned()
        self.reading = self.owner.reading() if self.owner else None

    def owned(self):
        """The step or the method whose body it is."""
        table = self.teller.nodes[-2]
        name = table.get("name")
        start = name.start if name is not None else table.start
        among = self.project.methods() if self.is_method else self.project.steps
        return next((it for it in among if it.start == start), None)

    def told(self):
        tokens = self.reading.tokens
        if self.number >= len(tokens):
            return self.teller.show(f"the body has no token {self.number}")
        token = tokens[self.number]
        message, notes = getattr(self, self.word.replace(" ", "_"))(token)
        places = self.teller.node.places
        start = places[token.start]
        end = places[token.end - 1] + 1 if token.end > token.start else start
        return self.teller.show_at(start, end, message, *notes, f"token {self.number} of the body")

    def expected(self):
        return f"what may stand here is {either(self.reading.expected)}" if self.reading.expected else ""

    def wrong_token(self, token):
        if token.text == '"':
            rest = self.owner.body.value[token.start + 1 :]
            return "no text is written so", [WRONG_ESCAPE if '"' in rest and "\\" in rest else NOT_CLOSED]
        return f"no token begins with `{token.text}`", [MEANT.get(token.text, ""), self.expected()]

    def too_deep(self, token):
        return f"{token.shown()} stands inside 64 open ones", ["bind a part with `let` before"]

    def syntax(self, token):
        before = self.reading.tokens[self.number - 1] if self.number else None
        return f"{token.shown()} may not stand here", [self.syntax_hint(token, before), self.expected()]

    def syntax_hint(self, token, before):
        """What was probably meant where a token may not stand, or an empty text."""
        text = token.text
        if before and before.kind == "number" and token.kind == "number" and not text.startswith("-"):
            return "a number has no leading zero, and 64 bits at most"
        if text == "=" and ("`==`" in self.reading.expected or before and before.text in ("=", "==")):
            return "equality is written `==`"
        if token.kind == "number" and text.startswith("-"):
            return f"there is no subtraction; to add a negative number, write `+ {text}`"
        if before and before.text == "<" and text == "=":
            return "there is no `<=`: write `!(b < a)` for `a <= b`"
        if before and before.text == "=" and text == "<":
            return "there is no `=<`"
        if text in ("==", "<") and "`&&`" in self.reading.expected:
            return "a comparison isn't repeated: join two by `&&`"
        if token.kind == "keyword" and not self.is_method and text in METHOD_WORDS:
            return f"`{text}` belongs to the methods of recorders; a step records their calls"
        if token.kind == "keyword" and self.is_method and text in STEP_WORDS:
            return f"`{text}` belongs to steps"
        if token.kind == "keyword" and {"a name", "a field", "an item"} & set(self.reading.expected):
            return f"`{text}` is a word of the language, and no name"
        if "`;`" in self.reading.expected:
            return "a statement ends with `;`"
        if token.kind == "name" and "`let`" in self.reading.expected:
            return did_you_mean(text, ["let", "produce", "for", "if", "call", "fail"]) or "a name is bound by `let`, and not set again"
        return ""

    def unknown_name(self, token):
        use = self.reading.use_at(self.number)
        if use is None:
            return f"{token.shown()} is unknown here", []
        message, names = self.lookup(use)
        shown = ", ".join(names[:8]) + " and others" if len(names) > 8 else both(names)
        known = f"known {'is' if len(names) == 1 else 'are'} {shown}"
        return message, [did_you_mean(use.name, names), known if names else ""]

    def lookup(self, use):
        """What an unknown name was looked for as, and the names that would be found."""
        project, name = self.project, use.name
        if use.role == "variable":
            names = list(dict.fromkeys(reversed(use.scope)))
            later = " here: what a block binds ends with the block" if name in self.reading.names("let") + self.reading.names("for") else ""
            return f"no variable {name} is in scope{later}", names
        if use.role == "item":
            return f"no extension declares an item {name}", [it.name for it in project.items]
        if use.role == "bean":
            return f"no extension declares a bean {name}", [it.name for it in project.beans]
        if use.role == "recorder":
            return f"no extension declares a recorder {name}", [it.name for it in project.recorders]
        if use.role == "method":
            return f"the recorder {use.owner} has no method {name}", [it.name for it in project.recorder(use.owner).methods]
        if use.role == "bean field":
            return f"the bean {use.owner} has no field {name}", project.bean(use.owner).fields
        recorder = project.recorder(self.owner.recorder)
        if use.role == "static":
            return f"the recorder {recorder.name} has no static {name}", recorder.statics
        return f"the recorder {recorder.name} has no field {name}", recorder.fields

    def wrong_use(self, token):
        if token.text == "call" and token.kind == "keyword":
            return "a step without `record` records no calls", ['write `record = "static"` or `record = "runtime"` in the step']
        use = self.reading.use_at(self.number)
        if use.role == "item":
            return self.wrong_item(use)
        if use.role == "method":
            return self.wrong_arguments(use)
        if use.role == "bean":
            return self.left_out_fields(use)
        return f"the field {use.name} stands here a second time", []

    def wrong_arguments(self, use):
        params = self.project.recorder(use.owner).method(use.name).params
        stand = f"{count(use.arguments, 'argument')} {'stands' if use.arguments == 1 else 'stand'} here"
        message = f"{use.owner}.{use.name} has {count(len(params), 'parameter')}, and {stand}"
        return message, [f"its parameters are {both(params)}" if params else ""]

    def left_out_fields(self, use):
        fields = self.project.bean(use.name).fields
        written = [it.name for it in self.reading.uses if it.role == "bean field" and it.owner == use.name and it.token > use.token]
        left_out = [it for it in fields if it not in written] or fields
        strange = next((it for it in written if it not in fields), "")
        note = f"it has no field {strange}: {did_you_mean(strange, fields) or 'its fields are ' + both(fields)}"
        message = f"a new {use.name} has a value for each of its fields"
        return message, [f"{both(left_out)} {'is' if len(left_out) == 1 else 'are'} left out", note if strange else ""]

    def wrong_item(self, use):
        item = self.project.item(use.name)
        declared = self.owner.produced(use.name) if use.owner == "produce" else self.owner.consumed(use.name)
        if not declared:
            return self.undeclared(use)
        if item.kind == "empty":
            told = "leave the statement out: that the step ends is all that its consumers wait for"
            return f"{use.name} is an empty item, and carries no value", [told if use.owner == "produce" else "a consumer only waits for it"]
        if use.owner == "get":
            article = "an" if item.kind == "ordered" else "a"
            return f"{use.name} is {article} {item.kind} item, which has a list of values", [f"write `all {use.name}`"]
        return f"{use.name} is a simple item, which has one value", [f"write `get {use.name}`"]

    def undeclared(self, use):
        """An item that the step's lists don't have."""
        word, entries = ("produce", self.owner.produces) if use.owner == "produce" else ("consume", self.owner.consumes)
        names = [it.name for it in entries]
        note = f"it {word}s {both(names)}" if names else f'write `{word}s = ["{use.name}"]`'
        return f"{self.owner.full_name} doesn't {word} {use.name}", [note, did_you_mean(use.name, names)]
