"""The items of a Rattle source: what each is called, who sees it, and of a function its signature and its clauses.

It knows the forms that Rattle has. A text in any other form is Unread, never passed over.
"""
import re
from typing import NamedTuple

CLAUSES = ("ghost", "requires", "ensures")
BRACKETS = {"(": ")", "[": "]", "{": "}"}
TOKEN = re.compile(r"""
    (?P<blank>\s+)
  | (?P<comment>//[^\n]*)
  | (?P<block>/\*)
  | (?P<string>b?"(?:\\.|[^"\\])*")
  | (?P<raw>b?r(?P<hashes>\#*)")
  | (?P<char>b?'(?:\\x[0-9A-Fa-f]{2}|\\u\{[0-9A-Fa-f]+\}|\\.|[^'\\\n])')
  | (?P<word>(?:r\#|')?[^\W\d]\w*|\d\w*)
  | (?P<mark>.)
""", re.VERBOSE | re.DOTALL)
ANTT = re.compile(r"(?P<comment>--[^\n]*)|(?P<block>\{-)|(?P<string>\"(?:\\.|[^\"\\])*\")|(?P<mark>[^-{\"}\[\]()]+|.)", re.DOTALL)


class Unread(Exception):
    """A place in a source that this reader does not know."""


class Clause(NamedTuple):
    """A clause; a name that it has stands behind its word."""
    word: str
    text: str


class Item(NamedTuple):
    """One item. `within` is the type of the impl block that it stands in, or None; `text` is the item without its body. An impl of a trait has the kind
    `trait impl`, its whole head for its name, and for its text the head and its ghost members."""
    kind: str
    name: str
    public: bool
    exported: bool
    within: str
    about: str
    attributes: tuple
    text: str
    clauses: tuple
    items: tuple
    line: int

    def has(self, word):
        return any(clause.word.split()[0] == word for clause in self.clauses)


class Source:
    def __init__(self, text, where):
        self.text, self.where, self.at = text, where, 0

    def wrong(self, said):
        raise Unread(f"{self.where}:{self.text.count(chr(10), 0, self.at) + 1}: {said}")

    def closed(self, opener, closer):
        """Moves past a nested comment whose opener has just been read."""
        depth = 1
        while depth:
            opens, closes = self.text.find(opener, self.at), self.text.find(closer, self.at)
            if closes < 0:
                self.wrong("a comment without an end")
            nested = 0 <= opens < closes
            depth += 1 if nested else -1
            self.at = (opens + len(opener)) if nested else (closes + len(closer))

    def token(self):
        """The next token that is neither blank nor comment, and where it begins; the empty string at the end."""
        while self.at < len(self.text):
            found = TOKEN.match(self.text, self.at)
            begin, self.at = self.at, found.end()
            kind = found.lastgroup if found.lastgroup != "hashes" else "raw"
            if kind == "block":
                self.closed("/*", "*/")
            elif kind == "raw":
                end = self.text.find('"' + found.group("hashes"), self.at)
                if end < 0:
                    self.wrong("a text without an end")
                self.at = end + 1 + len(found.group("hashes"))
                return self.text[begin:self.at], begin
            elif kind not in ("blank", "comment"):
                return found.group(), begin
        return "", len(self.text)

    def peek(self):
        at = self.at
        token = self.token()[0]
        self.at = at
        return token

    def take(self, *wanted):
        token, begin = self.token()
        if wanted and token not in wanted:
            self.wrong(f"`{token}` where {' or '.join(wanted)} should stand")
        return token, begin

    def bracketed(self, opener):
        """Moves past what a bracket encloses, the opener having just been read."""
        stack = [BRACKETS[opener]]
        while stack:
            token, _ = self.token()
            if token in BRACKETS:
                stack.append(BRACKETS[token])
            elif token == stack[-1]:
                stack.pop()
            elif token in ("", ")", "]", "}"):
                self.wrong(f"`{token}` where `{stack[-1]}` should stand")

    def antt(self, closer):
        """The antt text up to a closer, without its comments; moves past the closer."""
        depth, said = 0, []
        while self.at < len(self.text):
            found = ANTT.match(self.text, self.at)
            begin, self.at = self.at, found.end()
            token = found.group()
            if found.lastgroup == "comment":
                continue
            if found.lastgroup == "block":
                self.closed("{-", "-}")
                continue
            if closer == ";" and ";" in token and depth == 0 and found.lastgroup != "string":
                token = token[:token.index(";")]
                self.at = begin + len(token) + 1
                return plain("".join(said) + token)
            if token == closer and depth == 0:
                return plain("".join(said))
            depth += 1 if token in BRACKETS else -1 if token in BRACKETS.values() else 0
            said.append(token)
        self.wrong(f"no `{closer}`")

    def past(self, closer):
        """Moves past the next closer that no bracket encloses."""
        while True:
            token, _ = self.token()
            if token == closer:
                return
            if token in BRACKETS:
                self.bracketed(token)
            elif token in ("", ")", "]", "}"):
                self.wrong(f"`{token}` where `{closer}` should stand")

    def items(self, closer="", within=None):
        """The items up to a closer, which is read too: the end of the text, or the bracket that ends a block."""
        read = []
        while True:
            self.of_file()
            if self.peek() == closer:
                self.token()
                return tuple(read)
            read.append(self.item(within))

    def item(self, within):
        about = self.comment()
        attributes = []
        while self.peek() == "#":
            _, begin = self.take("#")
            self.take("[")
            self.bracketed("[")
            attributes.append(self.text[begin:self.at])
        token, start = self.token()
        line = self.text.count("\n", 0, start) + 1
        public = exported = False
        if token == "pub":
            public = True
            if self.peek() == "(":
                self.take("(")
                self.bracketed("(")
                public = False
            token, _ = self.token()
        while token in ("const", "unsafe", "extern") and not (token == "const" and not self.leads_to_function()):
            if token == "extern" and self.peek() != "fn":
                self.token()
            exported = exported or token == "extern"
            token, _ = self.token()
        exported = exported or any(re.match(r"#\[\s*(?:unsafe\s*\(\s*)?(?:no_mangle|export_name)\b", one) for one in attributes)
        kind = token
        made = dict(
            kind=kind, name="", public=public, exported=exported, within=within, about=about, attributes=tuple(attributes),
            text="", clauses=(), items=(), line=line,
        )
        if kind == "fn":
            return self.function(made, start)
        if kind == "ghost" and self.peek() == "use":
            self.take("use")
            return Item(**{**made, "kind": "ghost use", "text": self.antt(";")})
        if kind == "use":
            begin = self.at
            self.past(";")
            return Item(**{**made, "text": plain(self.text[begin:self.at - 1])})
        if kind in ("struct", "enum"):
            made["name"] = self.token()[0]
            self.declared()
            return Item(**{**made, "text": self.dedented(start)})
        if kind in ("const", "type"):
            made["name"] = self.token()[0]
            self.past(";")
            return Item(**{**made, "text": self.dedented(start)})
        if kind == "ghost" and within is not None:
            made["name"] = self.token()[0]
            sign, _ = self.take("=", ":")
            self.take("{")
            said = self.antt("}")
            self.take(";")
            return Item(**{**made, "text": f"ghost {made['name']}{sign if sign == ':' else ' ='} {{ {said} }};"})
        if kind == "mod":
            made["name"] = self.token()[0]
            token, _ = self.take(";", "{")
            return Item(**{**made, "items": self.items("}") if token == "{" else None})
        if kind == "trait" and within is None:
            made["name"] = self.token()[0]
            while self.peek() not in ("{", ""):
                self.token()
            self.take("{")
            return Item(**{**made, "items": self.items("}", made["name"])})
        if kind == "impl" and within is None:
            begin = self.at
            while self.peek() not in ("{", ""):
                self.token()
            head = plain(self.text[begin:self.at])
            of_trait, owner = owner_of(head)
            if not owner:
                self.wrong(f"an impl block of another form: impl {head}")
            self.take("{")
            inner = self.items("}", owner)
            if not of_trait:
                return Item(**{**made, "name": owner, "items": inner})
            ghosts = "\n".join(f"    {one.text}" for one in inner if one.kind in ("ghost", "type"))
            return Item(**{**made, "kind": "trait impl", "name": head, "text": f"impl {head}" + (f" {{\n{ghosts}\n}}" if ghosts else " {}"), "items": inner})
        self.wrong(f"an item of another form, at `{kind}`")

    def of_file(self):
        """Moves past the attributes of a whole file, which say nothing of an item."""
        while True:
            at = self.at
            if self.token()[0] != "#" or self.peek() != "!":
                self.at = at
                return
            self.take("!")
            self.take("[")
            self.bracketed("[")

    def leads_to_function(self):
        at = self.at
        token, _ = self.token()
        while token in ("unsafe", "extern") or token.startswith('"'):
            token, _ = self.token()
        self.at = at
        return token == "fn"

    def declared(self):
        """Moves past the rest of a struct or an enum; a ghost field's braces hold antt."""
        while True:
            token, _ = self.token()
            if token == ";":
                return
            if token == "(" or token == "[":
                self.bracketed(token)
            elif token == "{":
                while True:
                    token, _ = self.token()
                    if token == "}":
                        return
                    if token == "ghost":
                        while self.token()[0] not in ("{", ""):
                            pass
                        self.antt("}")
                    elif token in BRACKETS:
                        self.bracketed(token)
                    elif token == "":
                        self.wrong("a type without an end")
            elif token == "":
                self.wrong("a type without an end")

    def function(self, made, start):
        made["name"] = self.token()[0]
        while self.peek() not in ("{", ";", "") and self.peek() not in CLAUSES:
            token, _ = self.token()
            if token in BRACKETS:
                self.bracketed(token)
        text = self.dedented(start)
        clauses = []
        while self.peek() in CLAUSES:
            word, _ = self.token()
            if self.peek() != "{":
                word = f"{word} {self.token()[0]}"
            self.take("{")
            clauses.append(Clause(word, self.antt("}")))
        token, _ = self.take("{", ";")
        if token == "{":
            self.bracketed("{")
        return Item(**{**made, "text": text, "clauses": tuple(clauses)})

    def dedented(self, start):
        """The text from a place to here, without comments, as if it began a line."""
        left = start - (self.text.rfind("\n", 0, start) + 1)
        lines = []
        for line in self.text[start:self.at].rstrip().split("\n"):
            bare = re.sub(r"\s*//.*", "", line)
            if bare.strip() or not line.strip():
                lines.append(bare[left:] if lines and not bare[:left].strip() else bare)
        return "\n".join(lines)

    def comment(self):
        """The comment lines that stand right above the next item."""
        begin = self.at
        _, end = self.token()
        self.at = begin
        said = []
        for line in reversed(self.text[begin:end].split("\n")[:-1]):
            if not line.strip().startswith("//"):
                break
            said.append(line.strip())
        return "\n".join(reversed(said))


def plain(text):
    return " ".join(text.split())


def owner_of(head):
    """Of the head of an impl block, whether it is of a trait, and the name of the type that it is for; no name where the head has another form."""
    bare, depth = [], 0
    for sign in re.findall(r"->|.", head):
        depth += {"<": 1, ">": -1}.get(sign, 0)
        if depth == 0 and sign != ">":
            bare.append(sign)
    found = re.fullmatch(r"\s*(?:([\w:]+)\s+for\s+)?(?:&\s*(?:'\w+\s+)?(?:mut\s+)?)?([\w:]+|\[\w+\])\s*(?:where\b.*)?", "".join(bare))
    return (bool(found.group(1)), found.group(2).split("::")[-1]) if found else (False, "")


def items(text, where):
    """The items of a source, in order."""
    return Source(text, where).items()


def code(text):
    """The tokens of a source, without blanks and comments."""
    source, tokens = Source(text, ""), []
    while source.peek():
        tokens.append(source.token()[0])
    return tokens
