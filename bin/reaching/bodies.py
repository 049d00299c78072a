"""What the body of a function calls, as far as its source tells: see `Body`. The forms of types are those of program.py."""

from .items import LISTS, Reader, Type

BINARY = set("+ - * / % ^ & | && || == != <= >= < > = += -= *= /= %= ^= &= |= .. ..= as".split())
RANGES = ("..", "..=")
COMPARISONS = {"==", "!=", "<", ">", "<=", ">=", "&&", "||"}
BLOCKS = ("{", "if", "match", "for", "while", "loop", "unsafe")
# The types of what has no methods in the crates.
PLAIN = ("type", "plain", ())
UNIT = ("tuple", ())
# Of an expression that hands on no value, as `return`.
NEVER = ("never",)

# Methods of std, by what they return: what they are called on, an item of it, or an option of one. An item of an option is what
# it holds, and of a result what its `Ok` holds.
SAME = set("iter iter_mut into_iter as_slice as_mut_slice skip take filter copied as_ref as_mut lock into_inner collect cmp".split())
ITEM = set("unwrap_or unwrap remove".split())
ITEM_OPTION = set("first first_mut last last_mut get get_mut pop pop_front next next_back find peek".split())
# Methods that tell what a list has, by their last argument.
GROW = set("push push_reserved push_back insert".split())


def option(of):
    return ("type", "Option", (of,))


def held(of, place=0):
    """Returns the type of an item of a list, or of what an option or a result holds."""
    if of and of[0] == "list":
        return of[1]
    if of and of[0] == "type" and not isinstance(of[1], Type) and len(of[2]) > place:
        return of[2][place]
    return None


class Body(Reader):
    """Goes through the body of a function once, and has the program note each function that it calls or hands on.

    On the way it finds the type of each expression that it can: from the types of parameters, fields, constants and results, from
    `let` with a type, from patterns, and from what a few methods of std return.
    """

    def __init__(self, program, function):
        super().__init__(function.module, None)
        self.program, self.of_function = program, function
        self.scope = program.scope(function)
        # The types of the variables, and of what a closure among the arguments that follow gets.
        self.variables: dict = {}
        self.given: tuple = ()
        # The methods that are called on what has no known type, with the tokens before them.
        self.unknown = []

    def resolve(self, written):
        return self.program.resolved(written, self.scope)

    def run(self):
        if self.of_function.has_self:
            self.variables["self"] = self.scope.self_type
        for begin, written in self.of_function.inputs:
            self.bind(begin, self.resolve(written))
        self.resolve(self.of_function.output)
        begin, end = self.of_function.body
        self.at = begin
        while self.at < end:
            self.expression()

    # Statements

    def block(self):
        self.want("{")
        outer, result = dict(self.variables), UNIT
        while self.take("}") is None:
            self.attributes()
            if self.peek() == "let":
                self.let()
                result = UNIT
            elif self.peek() in ("use", "const", "fn"):
                self.items(self.at + 1, None, {})
            elif self.take(";") is None:
                result = self.expression(statement=True)
                if self.take(";") and result != NEVER:
                    result = UNIT
        self.leave(outer)
        return result

    def leave(self, outer):
        """Forgets the variables of a block. Of a list of before the block it is kept what it has."""
        for name, of in outer.items():
            if of == ("list", None):
                outer[name] = self.variables.get(name)
        self.variables = outer

    def let(self):
        self.want("let")
        begin = self.at
        self.skip_to(":", "=", ";")
        of = self.resolve(self.type()) if self.take(":") else None
        if self.take("="):
            found = self.expression()
            of = found if of in (None, ("list", None)) else of
        self.bind(begin, of)
        if self.take("else"):
            self.block()
        self.want(";")

    # Patterns

    def bind(self, begin, of):
        """Gives types to the variables of the pattern that begins at a place. If it has several forms, all have these variables."""
        after, self.at = self.at, begin
        self.single(of)
        self.at = after

    def pattern(self, of):
        self.take("|")
        self.single(of)
        while self.take("|"):
            self.single(of)

    def single(self, of):
        token = self.peek()
        if token in ("&", "&&", "ref", "mut"):
            self.at += 1
            self.single(of)
        elif token == "..":
            self.at += 1
        elif self.take("("):
            self.patterns(")", of[1] if of and of[0] == "tuple" else ())
        elif self.take("["):
            while self.take("]") is None:
                if self.peek(1) == "@":
                    self.variables[self.take()] = of
                    self.at += 2
                else:
                    self.pattern(held(of))
                self.take(",")
        elif token == "-" or self.is_literal(token):
            self.take("-")
            self.at += 1
            self.rest_of_range()
        else:
            self.path_pattern(of)

    @staticmethod
    def is_literal(token):
        return token[0].isdigit() or token[0] in "\"'" or token[:2] in ('b"', "b'")

    def rest_of_range(self):
        if self.peek() in RANGES:
            self.at += 1
            if self.peek() not in ("|", "=>", ",", ")", "if", "="):
                self.take("-")
                self.at += 1

    def patterns(self, end, types):
        """Reads the patterns of a tuple. Those behind `..` have the last types."""
        place = 0
        while self.take(end) is None:
            self.pattern(types[place] if place < len(types) else None)
            place += 1
            self.take(",")

    def path_pattern(self, of):
        names = [self.take()]
        while self.take("::"):
            names.append(self.take())
        if self.take("@"):
            self.variables[names[0]] = of
            self.single(of)
        elif self.take("("):
            self.patterns(")", list(self.parts(names, of).values()))
        elif self.take("{"):
            fields = self.parts(names, of)
            while self.take("}") is None:
                if self.take("..") is None:
                    self.field_pattern(fields)
                self.take(",")
        elif len(names) == 1 and names[0][0].islower():
            self.variables[names[0]] = of
        elif names != ["_"]:
            self.find(names)
            self.rest_of_range()

    def field_pattern(self, fields):
        while self.peek() in ("ref", "mut"):
            self.at += 1
        name = self.take()
        if self.take(":"):
            self.pattern(fields.get(name))
        else:
            self.variables[name] = fields.get(name)

    def parts(self, names, of):
        """Returns the types of the fields of a variant or a struct by their names, given the type of the value that has them."""
        if names[-1] in ("Some", "Ok", "Err"):
            return {"0": held(of, 1 if names[-1] == "Err" else 0)}
        found = self.find(names)
        if found is None:
            return {}
        made, fields = self.program.fields_of(found)
        known = of and of[0] == "type" and of[1] is made
        subst = dict(zip(made.generics, of[2])) if known else {}
        return {name: self.program.substituted(self.program.field(made, it), subst) for name, it in fields.items()}

    # Expressions

    def expression(self, bare=False, statement=False):
        """Reads an expression, and returns its type. In a bare one no brace begins the fields of a struct."""
        if statement and self.peek() in BLOCKS:
            left = self.primary(bare)
            if self.peek() not in (".", "?"):
                return left
            left = self.postfix(left)
        else:
            left = self.unary(bare)
        while self.peek() in BINARY:
            token = self.take()
            if token == "as":
                left = self.resolve(self.type())
                continue
            if token in "<>" and self.peek() in (token, token + "="):
                self.at += 1
            if token in RANGES:
                ends = self.peek() in (")", "]", "}", ",", ";") or bare and self.peek() == "{"
                left = ("list", left if ends else self.unary(bare) or left)
            else:
                self.unary(bare)
                left = PLAIN if token in COMPARISONS else UNIT if token[-1] == "=" else left
        return left

    def unary(self, bare):
        token = self.peek()
        if token in ("&", "&&", "*", "-", "!", "mut"):
            self.at += 1
            return self.unary(bare)
        if token in ("|", "||", "move"):
            return self.closure(bare)
        if self.take("let"):
            begin = self.at
            self.skip_to("=")
            self.want("=")
            self.bind(begin, self.unary(True))
            return PLAIN
        if token in RANGES:
            self.at += 1
            if self.peek() not in (")", "]", "}", ","):
                self.unary(bare)
            return ("list", PLAIN)
        if token in ("return", "break", "continue"):
            self.at += 1
            if self.peek().startswith("'"):
                self.at += 1
            if self.peek() not in (";", "}", ",", ")"):
                self.expression(bare)
            return NEVER
        return self.postfix(self.primary(bare))

    def closure(self, bare):
        given, self.given = self.given, ()
        outer = dict(self.variables)
        inputs: list = []
        self.take("move")
        if self.take("||") is None:
            self.want("|")
            while self.take("|") is None:
                begin = self.at
                self.skip_to(":", ",", "|")
                of = given[len(inputs)] if len(inputs) < len(given) else None
                if self.take(":"):
                    of = self.resolve(self.type())
                self.bind(begin, of)
                inputs.append(of)
                self.take(",")
        if self.take("->"):
            self.type()
        self.clauses()
        output = self.expression(bare)
        self.leave(outer)
        return ("call", tuple(inputs), output)

    def primary(self, bare):
        token = self.peek()
        if token[0] == "'" and self.peek(1) == ":":
            self.at += 2
            return self.primary(bare)
        if self.take("("):
            types = self.arguments(")")
            return types[0] if len(types) == 1 and self.tokens[self.at - 2] != "," else ("tuple", tuple(types))
        if self.take("["):
            types = self.arguments("]")
            return ("list", types[0] if types else None)
        if token == "{" or self.take("unsafe"):
            return self.block()
        if self.take("if"):
            return self.choice()
        if self.take("match"):
            return self.match()
        if token in ("for", "while", "loop"):
            return self.loop()
        if self.is_literal(token):
            self.at += 1
            return ("list", PLAIN) if token[:2] == 'b"' else PLAIN
        return self.path(bare)

    def choice(self):
        outer = dict(self.variables)
        self.expression(True)
        results = [self.block()]
        self.leave(outer)
        if self.take("else"):
            results.append(self.choice() if self.take("if") else self.block())
        return self.joined(results)

    @staticmethod
    def joined(results):
        """Returns the type of branches: that of the branch of which the most is known."""
        known = [it for it in results if it not in (None, NEVER)]
        return min(known, key=lambda it: str(it).count("None")) if known else None

    def match(self):
        of = self.expression(True)
        end = self.ends[self.at]
        self.at += 1
        results = []
        while self.at < end:
            outer = dict(self.variables)
            self.pattern(of)
            if self.take("if"):
                self.expression(True)
            self.want("=>")
            results.append(self.expression(statement=True))
            self.leave(outer)
            self.take(",")
        self.at = end + 1
        return self.joined(results)

    def loop(self):
        kind, outer = self.take(), dict(self.variables)
        if kind == "for":
            begin = self.at
            self.skip_to("in")
            self.want("in")
            of = self.expression(True)
            self.bind(begin, held(of) or self.program.item_of(of))
        elif kind == "while":
            self.expression(True)
        self.block()
        self.leave(outer)
        return UNIT

    def arguments(self, end):
        types: list = []
        while self.take(end) is None:
            types.append(self.expression())
            self.take(",") or self.take(";")
        return types

    # Paths

    def find(self, names):
        """Looks up a path, and notes the function or the type that it names."""
        found = self.program.found(names, self.scope)
        if found:
            self.program.note(found)
        return found

    def path(self, bare):
        """Reads a path, and returns the type of its value: ("variable", name, type), ("function", FUNCTION), ("variant", TYPE, name) or
        ("wrap", name) if it may be called or gets methods."""
        if self.take("<"):
            self.type()
            self.want(">")
            self.want("::")
            self.take()
            return None
        names, arguments = [self.take()], []
        while self.take("::"):
            if self.take("<"):
                arguments = self.types(">")
            else:
                names.append(self.take())
        if self.peek() == "!" and self.peek(1) in ("(", "["):
            return self.macro(names[-1])
        if names[0] in self.variables:
            return ("variable", names[0], self.variables[names[0]])
        found = self.find(names)
        if self.peek() == "{" and not bare and found and found[0] in ("type", "variant"):
            return self.literal(found)
        if found is None:
            return self.foreign(names, arguments)
        if found[0] == "function":
            return self.program.result(found[1], None, []) if found[1].is_constant else ("function", found[1])
        if found[0] == "variant":
            return ("variant", *found[1])
        return ("type", found[1], ()) if found[0] == "type" else None

    def foreign(self, names, arguments):
        """Returns the type of a path that no crate has."""
        if names in (["Some"], ["Ok"], ["Err"]):
            return ("wrap", names[0])
        if names == ["None"]:
            return option(None)
        if names[-1] == "new" and names[-2:-1] in (["Mutex"], ["Box"]):
            return ("wrap", "same")
        if len(names) > 1 and names[-2] in LISTS:
            return ("call", (), ("list", self.resolve(arguments[0]) if arguments else None))
        return None

    def literal(self, found):
        made, fields = self.program.fields_of(found)
        subst: dict = {}
        self.want("{")
        while self.take("}") is None:
            if self.take(".."):
                self.expression()
            else:
                name = self.take()
                of = self.expression() if self.take(":") else self.variables.get(name)
                self.program.unify(self.program.field(made, fields[name]), of, subst)
            self.take(",")
        return ("type", made, tuple(subst.get(it) for it in made.generics))

    def macro(self, name):
        self.want("!")
        end = self.ends[self.at]
        self.at += 1
        types: list = []
        while self.at < end and name != "prove":
            if name == "matches" and types:
                outer = dict(self.variables)
                self.pattern(types[0])
                if self.take("if"):
                    self.expression()
                self.leave(outer)
            else:
                self.take("in")
                types.append(self.expression())
            self.take(",") or self.take(";")
        self.at = end + 1
        if name == "vec":
            return ("list", types[1] if len(types) > 1 else None)
        return NEVER if name == "unreachable" else PLAIN

    # What follows a path

    def postfix(self, of):
        while True:
            variable = of[1] if of and of[0] == "variable" else None
            if variable:
                of = of[2]
            if of and of[0] == "variant" and self.peek() != "(":
                of = ("type", of[1], ())
            if self.take("?"):
                of = of if of and of[0] == "list" else held(of)
            elif self.take("."):
                name = self.take()
                if self.take("::"):
                    self.want("<")
                    self.types(">")
                of = self.method(of, name, variable) if self.take("(") else self.program.field_of(of, name)
            elif self.take("("):
                of = self.called(of)
            elif self.take("["):
                index = self.arguments("]")[0]
                of = of if index and index[0] == "list" else held(of)
            else:
                return of

    def called(self, of):
        """Reads the arguments of a call of what has this type, and returns the type of its result."""
        if of and of[0] == "function":
            self.given = self.program.given_to(of[1], None)
        types = self.arguments(")")
        self.given = ()
        if not of:
            return None
        if of[0] == "function":
            owner = types.pop(0) if of[1].has_self and types else None
            return self.program.result(of[1], owner, types)
        if of[0] == "call":
            return of[2]
        if of[0] == "wrap":
            item = types[0] if types else None
            return {"Some": option(item), "Ok": ("type", "Result", (item, None)), "Err": ("type", "Result", (None, item))}.get(of[1], item)
        if of[0] == "variant" or of[0] == "type" and isinstance(of[1], Type):
            return self.program.made_of(of[1], of[2] if of[0] == "variant" else None, types)
        return None

    def method(self, of, name, variable):
        before = self.tokens[max(0, self.at - 8) : self.at - 1]
        functions = self.program.methods(of, name)
        item = held(of) or self.program.item_of(of)
        if functions:
            for it in functions:
                self.program.reach(it)
            self.given = self.program.given_to(functions[0], of)
        else:
            self.given = (held(of, 1) if name == "map_err" else item, item)
        types = self.arguments(")")
        self.given = ()
        if functions:
            return self.program.result(functions[0], of, types)
        if variable and name in GROW and of == ("list", None):
            self.variables[variable] = ("list", types[-1])
        if of is None:
            self.unknown.append(" ".join(before))
        return self.of_std(of, item, name, types)

    def of_std(self, of, item, name, types):
        """Returns what a method of std returns, as far as that may have methods of the crates."""
        if of is None:
            return None
        if of[1] == "BTreeMap":
            return self.of_map(of[2][0], of[2][1], name)
        # An iterator of the crates is taken for a list.
        whole = ("list", item) if item and of[0] == "type" and isinstance(of[1], Type) else of
        first = types[0] if types else None
        output = first[2] if first and first[0] == "call" else self.program.result(first[1], None, []) if first and first[0] == "function" else None
        if name == "map":
            return ("list", output) if whole[0] == "list" else ("type", of[1], (output, *of[2][1:]))
        if name == "map_err":
            return ("type", "Result", (item, output))
        if name == "and_then":
            return output
        if name == "filter_map":
            return ("list", held(output))
        if name in ("ok", "err"):
            return option(held(of, name == "err"))
        if name == "ok_or":
            return ("type", "Result", (item, first))
        if name == "enumerate":
            return ("list", ("tuple", (PLAIN, item)))
        if name == "zip":
            return ("list", ("tuple", (item, held(first))))
        if name == "chunks":
            return ("list", whole)
        if name in ("split_first", "split_last"):
            return option(("tuple", (item, whole)))
        if name == "split_at":
            return ("tuple", (whole, whole))
        if name in ITEM:
            return item
        if name in ITEM_OPTION:
            return option(whole if first and first[0] == "list" else item)
        return whole if name in SAME else PLAIN

    @staticmethod
    def of_map(key, value, name):
        """Returns what a method of a map returns."""
        if name in ("get", "get_mut", "insert", "remove"):
            return option(value)
        return ("list", value if name == "values" else ("tuple", (key, value)))
