"""The program: what the names of its crates mean, and which of their functions it calls."""

import re
from collections import namedtuple

from .bodies import PLAIN, Body
from .items import LISTS, TRANSPARENT, Reader, Type, modules_of

# Where a name stands: its module, the type parameters with their bounds, and what `Self` is.
Scope = namedtuple("Scope", "module generics self_type")


class Program:
    """The crates of a program.

    What a type is, as far as it is known: None if it isn't; ("type", MADE, arguments), in which MADE is a `Type`, or the name of a type
    that no crate has; ("list", item) of whatever has items in a row; ("tuple", types); ("any", name, bounds) of a parameter;
    ("call", inputs, output) of a closure. What a path means is a pair of a kind and of what it names: a module, a type, a function, or, of
    a variant, its type and its name.
    """

    def __init__(self, modules, below):
        self.modules, self.below = modules, below
        # The functions reached, those of them still to be read, the types that they name, and the methods of traits among them.
        self.reached, self.waiting = set(), []
        self.named: set = set()
        self.asked: set = set()
        # The calls of methods on what has no known type.
        self.unknown = []
        impls = []
        for module in modules.values():
            reader = Reader(module, modules)
            reader.items(len(module.tokens))
            impls += reader.impls
        for it in impls:
            self.add_impl(*it)
        self.named.clear()

    def add_impl(self, module, generics, trait, of, made):
        header = self.resolved(of, Scope(module, self.bounds(generics, module), None))
        found = self.lookup(module, trait[1]) if trait else None
        owner = header[1] if header and header[0] == "type" and isinstance(header[1], Type) else None
        for function in made.values():
            function.owner, function.header = owner, header
            function.generics = {**generics, **function.generics}
            if found:
                found[1].made.setdefault(function.name, []).append(function)
            elif trait and owner:
                owner.foreign.append(function)
            if owner:
                owner.functions.setdefault(function.name, []).append(function)
        if owner and found:
            owner.traits.append(found[1])

    # Names

    def lookup(self, module, names):
        """Returns what a path means in a module, or None."""
        first, *rest = names
        if first == "crate":
            found = ("module", self.modules[module.path[:1]])
        elif first == "self":
            found = ("module", module)
        elif first == "super":
            found = ("module", self.modules[module.path[:-1]])
        else:
            found = self.item(module, first)
        for name in rest:
            found = found and self.within(found, name)
        return found

    def item(self, module, name):
        if name in module.items:
            return module.items[name]
        if name in module.uses and module.uses[name] != [name]:
            return self.lookup(module, module.uses[name])
        return ("module", self.modules[(name,)]) if name in self.below[module.path[0]] and (name,) in self.modules else None

    def within(self, found, name):
        kind, of = found
        if kind == "module":
            return of and self.item(of, name)
        if kind != "type":
            return None
        if name in of.variants:
            return ("variant", (of, name))
        functions = self.methods(("type", of, ()), name)
        return ("function", functions[0]) if functions else None

    def found(self, names, scope):
        """Returns what a path in a body means."""
        if names[0] == "Self":
            of = scope.self_type
        elif names[0] in scope.generics:
            of = ("any", names[0], scope.generics[names[0]])
        else:
            return self.lookup(scope.module, names)
        if of[0] == "type" and isinstance(of[1], Type):
            return ("type", of[1]) if len(names) == 1 else self.within(("type", of[1]), names[1])
        functions = self.methods(of, names[-1])
        return ("function", functions[0]) if functions else None

    def fields_of(self, found):
        """Returns the type that a path names, or to which its variant belongs, and the fields as they are written."""
        kind, of = found
        return (of[0], of[0].variants[of[1]]) if kind == "variant" else (of, of.fields)

    # Types

    def bounds(self, generics, module):
        return {name: tuple(self.bound(it, module, generics) for it in found) for name, found in generics.items()}

    def bound(self, written, module, generics):
        """Returns the trait that bounds a parameter, or the type of a closure; None for a trait that no crate has."""
        if written[0] == "call":
            return self.resolved(written, Scope(module, dict.fromkeys(generics, ()), None))
        found = self.lookup(module, written[1])
        return found and found[1]

    def scope(self, function):
        header = function.header or function.owner and ("any", "Self", (function.owner,))
        return Scope(function.module, self.bounds(function.generics, function.module), header)

    def field(self, made, written):
        """Returns the type of a field, with the parameters of its type."""
        return self.resolved(written, Scope(made.module, self.bounds(made.generics, made.module), None))

    def resolved(self, written, scope):
        """Returns what a type is that is written in a scope."""
        if written is None:
            return None
        kind, *parts = written
        if kind == "tuple":
            return ("tuple", tuple(self.resolved(it, scope) for it in parts[0]))
        if kind == "list":
            return ("list", self.resolved(parts[0], scope))
        if kind == "call":
            return ("call", tuple(self.resolved(it, scope) for it in parts[0]), self.resolved(parts[1], scope))
        if kind == "bound":
            return ("any", "", tuple(self.bound(it, scope.module, scope.generics) for it in parts[0]))
        names, arguments = parts[0], tuple(self.resolved(it, scope) for it in parts[1])
        if names == ["Self"]:
            return scope.self_type
        if names[0] in scope.generics or names[0] == "Self":
            return ("any", names[0], scope.generics[names[0]]) if len(names) == 1 else None
        if found := self.lookup(scope.module, names):
            return self.named_type(found[1], arguments)
        if names[-1] in TRANSPARENT:  # The type behind that of an Arc is its allocator's.
            return arguments[0 if names[-1] == "Arc" else -1]
        if names[-1] in LISTS:
            return ("list", arguments[0])
        return ("type", names[-1], arguments) if arguments else PLAIN

    def named_type(self, made, arguments):
        if made.alias:
            return self.substituted(self.field(made, made.alias), dict(zip(made.generics, arguments)))
        self.named.add(made)
        return ("type", made, arguments)

    def substituted(self, of, subst):
        """Returns a type with these types in the place of parameters."""
        if of is None or not subst or of[0] == "never":
            return of
        kind, *parts = of
        if kind == "any":
            return subst.get(parts[0], of)
        if kind == "list":
            return ("list", self.substituted(parts[0], subst))
        if kind == "tuple":
            return ("tuple", tuple(self.substituted(it, subst) for it in parts[0]))
        if kind == "call":
            return ("call", tuple(self.substituted(it, subst) for it in parts[0]), self.substituted(parts[1], subst))
        return (kind, parts[0], tuple(self.substituted(it, subst) for it in parts[1]))

    def unify(self, pattern, of, subst):
        """Finds the types in the place of a pattern's parameters that make it the other type."""
        if pattern is None or of is None:
            return
        if pattern[0] == "any":
            subst.setdefault(pattern[1], of)
            for it in pattern[2]:
                if isinstance(it, tuple):
                    self.unify(it, of, subst)
        elif pattern[0] == of[0] == "list":
            self.unify(pattern[1], of[1], subst)
        elif pattern[0] == of[0] == "call":
            self.unify(pattern[2], of[2], subst)
        elif pattern[0] == of[0] == "tuple":
            for it, that in zip(pattern[1], of[1]):
                self.unify(it, that, subst)
        elif pattern[0] == of[0] == "type" and pattern[1] == of[1]:
            for it, that in zip(pattern[2], of[2]):
                self.unify(it, that, subst)

    def field_of(self, of, name):
        if of and of[0] == "tuple" and name.isdigit() and int(name) < len(of[1]):
            return of[1][int(name)]
        if of and of[0] == "type" and isinstance(of[1], Type) and name in of[1].fields:
            return self.substituted(self.field(of[1], of[1].fields[name]), dict(zip(of[1].generics, of[2])))
        return None

    def made_of(self, made, variant, types):
        """Returns the type of a struct or a variant that is made of fields of these types."""
        subst: dict = {}
        for written, of in zip((made.variants[variant] if variant else made.fields).values(), types):
            self.unify(self.field(made, written), of, subst)
        return ("type", made, tuple(subst.get(it) for it in made.generics))

    def item_of(self, of):
        """Returns what an iterator of the crates gives."""
        nexts = self.methods(of, "next")
        output = self.result(nexts[0], of, []) if nexts else None
        return output[2][0] if output and output[0] == "type" and output[1] == "Option" else None

    # Functions

    def methods(self, of, name):
        """Returns the functions of this name that a value of the type has."""
        if of and of[0] == "any":
            return [it.functions[name][0] for it in of[2] if isinstance(it, Type) and name in it.functions]
        if not of or of[0] != "type" or not isinstance(of[1], Type):
            return []
        if name in of[1].functions:
            return of[1].functions[name]
        return [it.functions[name][0] for it in of[1].traits if name in it.functions]

    def subst_of(self, function, of):
        """Returns the types in the place of the parameters of a function's impl, if it is called on a value of this type."""
        subst: dict = {}
        if function.header is not None:
            self.unify(function.header, of, subst)
        elif of is not None:
            subst["Self"] = of
        return subst

    def given_to(self, function, of):
        """Returns what the closure that is handed to a function gets, or nothing."""
        scope, subst = self.scope(function), self.subst_of(function, of)
        for _, written in function.inputs:
            input = self.resolved(written, scope)
            calls = [it for it in input[2] if isinstance(it, tuple)] if input and input[0] == "any" else []
            if calls:
                return self.substituted(calls[0], subst)[1]
        return ()

    def result(self, function, of, types):
        """Returns the type of a function's result, given those of the value on which it is called and of its arguments."""
        scope, subst = self.scope(function), self.subst_of(function, of)
        for (_, written), it in zip(function.inputs, types):
            self.unify(self.resolved(written, scope), it, subst)
        return self.substituted(self.resolved(function.output, scope), subst)

    # What is reached

    def note(self, found):
        kind, of = found
        if kind == "function":
            self.reach(of)
        elif kind != "module":
            self.named.add(of if kind == "type" else of[0])

    def reach(self, function):
        if function not in self.reached:
            self.reached.add(function)
            self.waiting.append(function)

    def run(self, main):
        """Finds all functions that the program calls."""
        self.reach(main)
        while self.waiting:
            while self.waiting:
                self.read(self.waiting.pop())
            for it in (it for made in list(self.named) for it in made.foreign):
                self.reach(it)
            for it in (it for asked in list(self.asked) for it in asked.owner.made.get(asked.name, [])):
                if it.owner is None or it.owner in self.named:
                    self.reach(it)

    def read(self, function):
        if function.owner is not None and function.owner.is_trait:
            self.asked.add(function)
        if function.body:
            body = Body(self, function)
            try:
                body.run()
            except (LookupError, TypeError, AttributeError) as error:
                raise SyntaxError(f"{function}: can't be read at {body.near()}") from error
            self.unknown += [f"{function}: {it}" for it in body.unknown]

    def makes(self, path):
        """Returns whether the program makes the call that a path names, the crate first; None for a law, or if it has no such call."""
        root = self.modules.get(path[:1])
        found = root and self.lookup(root, path[1:])
        functions = [found[1]] if found and found[0] == "function" else [it for it in self.functions() if it.is_named(path)]
        functions = [it for it in functions if not it.is_law()]
        return any(it in self.reached for it in functions) if functions else None

    def functions(self):
        for module in self.modules.values():
            for kind, it in module.items.values():
                if kind == "function":
                    yield it
                elif kind == "type":
                    for made in it.functions.values():
                        yield from made


def program_of(top):
    """Returns the program `peers_node`, of the crates that crates.txt lists below it, with what it reaches."""
    lines = re.findall(r"^([a-z]\w*)[^:\n]*:(.*)$", (top / "crates.txt").read_text(encoding="utf-8"), re.M)
    below = {name: words.split() for name, words in lines}
    modules, crates, waiting = {}, set(), ["peers_node"]
    while waiting:
        crate = waiting.pop()
        if crate in below and crate not in crates:
            crates.add(crate)
            waiting += below[crate]
            modules.update(modules_of(top / "crates" / crate, crate))
    program = Program(modules, below)
    program.run(modules[("peers_node",)].items["main"][1])
    return program
