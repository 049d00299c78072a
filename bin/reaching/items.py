"""What the sources of crates have: modules, types, traits and functions. Contracts and ghost items are passed over."""

import re

TOKEN = re.compile(
    r"""\s+|//[^\n]*|(b?"(?:\\.|[^"\\])*"|b?'(?:\\(?:x..|.)|[^'\\])'|'\w+|\w+|::|->|=>|\.\.=|\.\.|&&|\|\||[-+*/%^&|=!<>]=|.)""",
    re.S,
)
# Types of std that are taken for what they hold, and those that are taken for lists of it.
TRANSPARENT = {"Arc", "Box", "Mutex", "MutexGuard"}
LISTS = {"Vec", "VecDeque", "Iter"}


class Type:
    """A type, or a trait."""

    def __init__(self, module, name):
        self.module, self.name = module, name
        # The bounds of its parameters by their names, and what a type alias stands for.
        self.generics, self.alias = {}, None
        # The types of its fields by their names, in a tuple by their index, and the fields of its variants.
        self.fields, self.variants = {}, {}
        # Its functions by their names, those of impls of traits that no crate has, and the other traits that have an impl for it.
        self.functions, self.foreign, self.traits = {}, [], []
        # Of a trait, the functions of its impls by their names.
        self.is_trait, self.made = False, {}


class Function:
    """A function, or a constant, which has a type and a body too."""

    def __init__(self, module, owner, name):
        self.module, self.owner, self.name = module, owner, name
        # The bounds of its parameters by their names; where the pattern of each input begins, with its type; the type of its result.
        self.generics, self.inputs, self.output = {}, [], None
        # Where its body begins and ends, and the type for which its impl is.
        self.body, self.header = None, None
        self.has_self, self.is_constant = False, False

    def is_named(self, path):
        """Returns whether a path names it: the crate, and the last of its modules or its type, and its name."""
        own = [*self.module.path[1:], *([self.owner.name] if self.owner else [])]
        crate, *above, name = path
        if self.owner and not above:
            return False
        return self.module.path[0] == crate and self.name == name and own[len(own) - len(above) :] == above

    def is_law(self):
        return self.module.path[-1].endswith("laws") or self.body is not None and self.body[1] - self.body[0] == 2

    def __str__(self):
        return "::".join([*self.module.path, *([self.owner.name] if self.owner else []), self.name])


class Module:
    def __init__(self, path):
        self.path = path
        # Its items by their names, each with its kind, and the paths that its `use` lines bring in.
        self.items, self.uses = {}, {}
        # Its tokens, and for each place of an opening bracket the place of the one that closes it.
        self.tokens, self.ends = [], {}


def tokens_of(text):
    return [it for it in TOKEN.findall(text) if it]


def ends_of(tokens):
    """Returns for each opening bracket the place of the one that closes it."""
    ends, opened = {}, []
    for place, token in enumerate(tokens):
        if token in "([{":
            opened.append(place)
        elif token in ")]}":
            ends[opened.pop()] = place
    return ends


class Reader:
    """Reads the items of a module from its tokens."""

    def __init__(self, module, crates):
        self.module, self.crates = module, crates
        self.tokens, self.ends = module.tokens, module.ends
        self.at = 0
        self.impls = []

    def peek(self, ahead=0):
        place = self.at + ahead
        return self.tokens[place] if place < len(self.tokens) else ""

    def take(self, token=None):
        """Passes over the next token and returns it; if a token is given, only if that is the next one."""
        found = self.peek()
        if token not in (None, found):
            return None
        self.at += 1
        return found

    def want(self, token):
        if self.take(token) is None:
            raise SyntaxError(f"{'::'.join(self.module.path)}: there is no {token} at {self.near()}")

    def near(self):
        return " ".join(self.tokens[max(0, self.at - 12) : self.at + 6])

    def skip(self):
        """Passes over a token, or all that stands in brackets."""
        self.at = self.ends.get(self.at, self.at) + 1

    def skip_to(self, *tokens):
        while self.peek() and self.peek() not in tokens:
            self.skip()

    def clauses(self):
        """Passes over contracts."""
        while self.peek() in ("requires", "ensures"):
            self.skip_to("{")
            self.skip()

    # Types. A type is read as a tuple: ("path", names, arguments), ("tuple", types), ("list", type), ("bound", types) or
    # ("call", inputs, output).

    def type(self):
        while self.peek() in ("&", "&&", "mut", "const", "*") or self.peek().startswith("'"):
            self.at += 1
        if self.take("("):
            return ("tuple", self.types(")"))
        if self.take("["):
            item = self.type()
            if self.take(";"):
                self.skip_to("]")
            self.want("]")
            return ("list", item)
        if self.take("!"):
            return ("tuple", [])
        if self.peek() in ("impl", "dyn"):
            self.at += 1
            return ("bound", self.bounds())
        if self.take("<"):
            self.type()
            while self.take(">") is None:
                self.at += 1
            while self.take("::"):
                self.at += 1
            return ("path", ["?"], [])
        names, arguments = [self.take()], []
        while True:
            if self.peek() == "<" or self.peek() == "::" and self.peek(1) == "<":
                self.take("::")
                self.at += 1
                arguments = self.types(">")
            elif self.peek() == "(" and names[-1] in ("Fn", "FnMut", "FnOnce"):
                self.at += 1
                inputs = self.types(")")
                return ("call", inputs, self.type() if self.take("->") else None)
            elif self.take("::"):
                names.append(self.take())
            else:
                return ("path", names, arguments)

    def types(self, end):
        types = []
        while self.take(end) is None:
            if self.peek().startswith("'"):
                self.at += 1
            elif self.peek(1) == "=":
                self.at += 2
                types.append(self.type())
            elif self.peek().isdigit():
                self.at += 1
            else:
                types.append(self.type())
            self.take(",")
        return types

    def bounds(self):
        bounds = []
        while True:
            self.take("?")
            if self.peek().startswith("'"):
                self.at += 1
            elif self.peek() not in (",", ">", "{", "=", ";", ")"):
                bounds.append(self.type())
            if self.take("+") is None:
                return bounds

    def generics(self):
        """Returns the bounds of the type parameters by their names."""
        found: dict = {}
        if self.take("<") is None:
            return found
        while self.take(">") is None:
            if self.peek().startswith("'"):
                self.at += 1
                if self.take(":"):
                    self.bounds()
            else:
                self.take("const")
                name = self.take()
                found[name] = self.bounds() if self.take(":") else []
                if self.take("="):
                    self.type()
            self.take(",")
        return found

    def where(self, generics):
        if self.take("where"):
            while self.peek() not in ("{", ";", "requires", "ensures"):
                of = self.type()
                self.want(":")
                bounds = self.bounds()
                if of[0] == "path" and of[1][-1] in generics:
                    generics[of[1][-1]] += bounds
                self.take(",")

    # Items

    def attributes(self):
        """Passes over attributes. Returns whether what follows is for tests alone."""
        tests = False
        while self.peek() == "#":
            self.at += 1
            self.take("!")
            inner = self.tokens[self.at : self.ends[self.at] + 1]
            tests = tests or inner[1:2] == ["test"] or inner[1:4] == ["cfg", "(", "test"]
            self.skip()
        return tests

    def items(self, end, owner=None, place=None):
        """Reads items up to a place; `place` is the dictionary for functions of an impl or a trait."""
        while self.at < end:
            tests = self.attributes()
            if self.at >= end:
                return
            if self.take("ghost"):
                self.skip_to(";", "{")
                if self.peek() == "{":
                    self.skip()
                self.take(";")
                continue
            if self.take("pub") and self.peek() == "(":
                self.skip()
            while self.peek() in ("unsafe", "extern") or self.peek() == "const" and self.peek(1) in ("fn", "unsafe"):
                self.at += 1
            self.item(self.take(), tests, owner, place)

    def item(self, kind, tests, owner, place):
        if kind == "use":
            self.use([])
            self.want(";")
        elif kind == "mod":
            name = self.take()
            if self.peek() == "{":
                raise SyntaxError(f"{self.module.path}: a module in a file")
            self.want(";")
            if not tests:
                self.module.items[name] = ("module", self.crates.get((*self.module.path, name)))
        elif kind == "type" and place is not None:
            self.skip_to(";")
        elif kind in ("struct", "enum", "trait", "type"):
            self.defined(kind)
        elif kind == "impl":
            self.impl()
        elif kind in ("fn", "const", "static"):
            made = self.function(owner) if kind == "fn" else self.constant(owner)
            if tests:
                return
            if place is None:
                self.module.items[made.name] = ("function", made)
            elif owner is None:
                place[made.name] = made
            else:
                place[made.name] = [made]
        elif kind not in (";", "}"):
            raise SyntaxError(f"{'::'.join(self.module.path)}: an item begins with {kind}")

    def use(self, above):
        path = list(above)
        while True:
            if self.take("{"):
                while self.take("}") is None:
                    self.use(path)
                    self.take(",")
                return
            path.append(self.take())
            if self.take("::") is None:
                break
        name = self.take() if self.take("as") else path[-1]
        self.module.uses[name] = path

    def defined(self, kind):
        made = Type(self.module, self.take())
        made.generics = self.generics()
        self.module.items[made.name] = ("type", made)
        if kind == "trait":
            made.is_trait = True
            if self.take(":"):
                self.bounds()
            self.where(made.generics)
            end = self.ends[self.at]
            self.at += 1
            self.items(end, made, made.functions)
            self.at = end + 1
        elif kind == "type":
            self.want("=")
            made.alias = self.type()
            self.want(";")
        elif kind == "struct":
            self.where(made.generics)
            made.fields = self.fields()
            self.take(";")
        else:
            end = self.ends[self.at]
            self.at += 1
            while self.at < end:
                self.attributes()
                name = self.take()
                made.variants[name] = self.fields()
                if self.take("="):
                    self.skip_to(",", "}")
                self.take(",")
            self.at = end + 1

    def fields(self):
        """Reads the fields of a struct or a variant."""
        found: dict = {}
        if self.peek() == "(":
            end = self.ends[self.at]
            self.at += 1
            while self.at < end:
                self.attributes()
                if self.take("pub") and self.peek() == "(":
                    self.skip()
                found[str(len(found))] = self.type()
                self.take(",")
            self.at = end + 1
        elif self.peek() == "{":
            end = self.ends[self.at]
            self.at += 1
            while self.at < end:
                self.attributes()
                if self.take("ghost"):
                    self.skip_to(",", "}")
                    self.take(",")
                    continue
                if self.take("pub") and self.peek() == "(":
                    self.skip()
                name = self.take()
                self.want(":")
                found[name] = self.type()
                self.take(",")
            self.at = end + 1
        return found

    def impl(self):
        generics = self.generics()
        of, trait = self.type(), None
        if self.take("for"):
            trait, of = of, self.type()
        self.where(generics)
        self.clauses()
        end = self.ends[self.at]
        self.at += 1
        made: dict = {}
        self.items(end, None, made)
        self.at = end + 1
        self.impls.append((self.module, generics, trait, of, made))

    def function(self, owner):
        made = Function(self.module, owner, self.take())
        made.generics = self.generics()
        end = self.ends[self.at]
        self.at += 1
        while self.at < end:
            self.attributes()
            begin = self.at
            while self.peek() in ("&", "mut") or self.peek().startswith("'"):
                self.at += 1
            if self.peek() == "self":
                made.has_self = True
                self.at += 1
                if self.take(":"):
                    self.type()
            else:
                self.at = begin
                self.skip_to(":")
                self.want(":")
                made.inputs.append((begin, self.type()))
            self.take(",")
        self.at = end + 1
        if self.take("->"):
            made.output = self.type()
        self.where(made.generics)
        self.clauses()
        if self.take(";") is None:
            made.body = (self.at, self.ends[self.at] + 1)
            self.skip()
        return made

    def constant(self, owner):
        self.take("mut")
        made = Function(self.module, owner, self.take())
        made.is_constant = True
        self.want(":")
        made.output = self.type()
        if self.take("="):
            begin = self.at
            self.skip_to(";")
            made.body = (begin, self.at)
        self.want(";")
        return made


def modules_of(folder, crate):
    """Returns the modules of a crate by their paths, the crate's own among them."""
    found = {}
    for path in sorted(folder.glob("src/**/*.rt")):
        names = path.relative_to(folder / "src").with_suffix("").parts
        module = Module((crate, *names))
        if names in (("lib",), ("main",)):
            module = Module((crate,))
        module.tokens = tokens_of(path.read_text(encoding="utf-8"))
        module.ends = ends_of(module.tokens)
        found[module.path] = module
    return found
