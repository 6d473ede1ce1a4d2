"""Single random changes of written trees, most of which cost them their type."""
from clf_trees import AFFINE, BARE, LINEAR, PERSISTENT, UNIT, at, free_variables, renamed, shifted

MARKS = [BARE, PERSISTENT, AFFINE]


def places(tree, scope=(), path=(), is_right_side=False):
    """Each part of a tree: its path, the part, which of the variables there can be named, and whether it has to stay a neutral."""
    yield path, tree, scope, is_right_side
    form = tree[0]
    if form == "lam":
        yield from places(tree[2], (True,) + scope, path + (2,))
    elif form == "function":
        yield from places(tree[2], scope, path + (2,))
        yield from places(tree[3], (tree[1] == PERSISTENT,) + scope, path + (3,))
    elif form in ("pair", "both"):
        yield from places(tree[1], scope, path + (1,))
        yield from places(tree[2], scope, path + (2,))
    elif form == "family":
        for number, index in enumerate(tree[2]):
            yield from places(index, scope, path + (2, number))
    elif form == "monad":
        for number, (mode, ty) in enumerate(tree[1]):
            yield from places(ty, scope, path + (1, number, 1))
            scope = (mode == PERSISTENT,) + scope
    elif form == "at":
        for number, act in enumerate(tree[2]):
            if act[0] == "arg":
                yield from places(act[2], scope, path + (2, number, 2))
    elif form == "monadic":
        for number, (modes, right) in enumerate(tree[1]):
            yield from places(right, scope, path + (1, number, 1), True)
            scope = (True,) * len(modes) + scope
        for number, (_, entry) in enumerate(tree[2]):
            yield from places(entry, scope, path + (2, number, 1))


def replaced(tree, path, new):
    if not path:
        return new
    return tree[:path[0]] + (replaced(tree[path[0]], path[1:], new),) + tree[path[0] + 1:]


def without(items, number):
    return items[:number] + items[number + 1:]


class Changes:
    def __init__(self, chance, signature):
        self.chance = chance
        self.constants = [name for name, (sort, _) in signature.items() if sort == "constant"]
        self.families = [name for name, (sort, _) in signature.items() if sort == "kind"]

    def changed(self, tree):
        """The tree with one change."""
        every = list(places(tree))
        while True:
            path, part, scope, is_right_side = self.chance.choice(every)
            new = self.change(part, scope, is_right_side)
            if new is not None and new != part:
                return replaced(tree, path, new)

    def change(self, part, scope, is_right_side):
        form = part[0]
        if form in ("family", "function", "both", "top", "monad"):
            return self.changed_type(part, scope)
        if not is_right_side and self.chance.random() < 0.12:
            return self.other(part)
        if form == "at":
            return self.changed_neutral(part, scope)
        if form == "lam":
            return self.chance.choice([("lam", self.chance.choice(MARKS), part[2]), self.unbound(part[2], scope)])
        if form == "pair":
            return self.chance.choice([("pair", part[2], part[1]), part[1], ("pair", part[1], UNIT)])
        if form == "monadic":
            return self.changed_expression(part, scope)
        return at(self.head(scope))

    def variable(self, scope):
        """A variable that can be named, or nothing."""
        named = [i for i, can_be_named in enumerate(scope) if can_be_named]
        return self.chance.choice(named) if named else None

    def head(self, scope):
        variable = self.variable(scope)
        return variable if variable is not None and self.chance.random() < 0.7 else self.chance.choice(self.constants)

    def other(self, part):
        return self.chance.choice([UNIT, ("pair", part, part), ("lam", BARE, shifted(part, 1)), ("monadic", (), ((BARE, part),)), at("base")])

    def unbound(self, body, scope):
        """The body without its binder, if another variable can stand for it."""
        instead = self.variable(scope)
        if instead is None and 0 in free_variables(body):
            return None
        return renamed(body, lambda i: instead if i == 0 else i - 1)

    def changed_neutral(self, part, scope):
        _, head, spine = part
        pick = self.chance.random()
        arguments = [number for number, act in enumerate(spine) if act[0] == "arg"]
        if head == "z" or (head == "s" and len(spine) == 1 and pick < 0.6):
            return at("s", ("arg", BARE, part)) if head == "z" else spine[0][2]
        inner = spine[self.chance.choice(arguments)][2] if arguments else part
        if pick < 0.3 and inner[0] == "at" and inner != part:
            return self.chance.choice([inner, at("base")])
        if len(arguments) > 1 and pick < 0.4:
            number, other = self.chance.sample(arguments, 2)
            return ("at", head, spine[:number] + (("arg", spine[number][1], spine[other][2]),) + spine[number + 1:])
        if pick < 0.6 or (not spine and pick < 0.8):
            return ("at", self.head(scope), spine)
        if pick < 0.7:
            return ("at", head, spine[:-1])
        if pick < 0.8:
            act = self.chance.choice([("arg", BARE, at(self.head(scope))), ("first",), ("second",)])
            return ("at", head, spine + (act,))
        if not spine:
            return None
        number = self.chance.randrange(len(spine))
        act = spine[number]
        if act[0] == "arg":
            new = ("arg", self.chance.choice(MARKS), act[2])
        else:
            new = ("second",) if act[0] == "first" else ("first",)
        return ("at", head, spine[:number] + (new,) + spine[number + 1:])

    def changed_expression(self, part, scope):
        _, steps, result = part
        pick = self.chance.random()
        if result and pick < 0.4:
            return ("monadic", steps, self.changed_result(result))
        if not steps:
            return ("monadic", (), result + ((BARE, at(self.head(scope))),))
        number = self.chance.randrange(len(steps))
        modes, right = steps[number]
        inner = (True,) * sum(len(modes) for modes, _ in steps[:number]) + scope
        later = ("monadic", steps[number + 1:], result)
        if pick < 0.6:
            # one binder more, or one less
            if modes and self.chance.random() < 0.5:
                newest = self.unbound(later, (True,) * (len(modes) - 1) + inner)
                return newest and ("monadic", steps[:number] + ((modes[:-1], right),) + newest[1], newest[2])
            _, more, end = shifted(later, 1)
            return ("monadic", steps[:number] + ((modes + (BARE,), right),) + more, end)
        if modes and pick < 0.8:
            place = self.chance.randrange(len(modes))
            return ("monadic", steps[:number] + ((modes[:place] + (self.chance.choice(MARKS),) + modes[place + 1:], right),) + later[1], result)
        # the step once more, with what comes later about the first or the second one's variables
        again = ((modes, shifted(right, len(modes))),)
        _, more, end = shifted(later, len(modes), self.chance.choice([0, len(modes)]))
        return ("monadic", steps[:number + 1] + again + more, end)

    def changed_result(self, result):
        number, other = self.chance.randrange(len(result)), self.chance.randrange(len(result))
        mode, entry = result[number]
        return self.chance.choice([
            without(result, number), result + (result[number],), result[:number] + ((self.chance.choice(MARKS), entry),) + result[number + 1:],
            result[:number] + ((mode, result[other][1]),) + result[number + 1:]])

    def changed_type(self, ty, scope):
        form = ty[0]
        if form == "family":
            choices = [("family", self.chance.choice(self.families), ty[2]), ("family", ty[1], ty[2] + (at("z"),)), ("top",), ("monad", ((LINEAR, ty),))]
            return self.chance.choice(choices + ([("family", ty[1], ty[2][:-1])] if ty[2] else []))
        if form == "function":
            is_named = 0 in free_variables(ty[3])
            mode = PERSISTENT if is_named else self.chance.choice([PERSISTENT, AFFINE, LINEAR])
            return self.chance.choice([("function", mode, ty[2], ty[3]), ty[2]])
        if form == "both":
            return self.chance.choice([("both", ty[2], ty[1]), ty[1]])
        if form == "monad" and ty[1]:
            number = self.chance.randrange(len(ty[1]))
            mode, entry = ty[1][number]
            later = ("monad", ty[1][number + 1:])
            if 0 in free_variables(later):
                return None
            mode = self.chance.choice([PERSISTENT, AFFINE, LINEAR])
            return self.chance.choice([("monad", ty[1][:number] + shifted(later, -1)[1]), ("monad", ty[1][:number] + ((mode, entry),) + later[1])])
        return ("family", "a", ())
