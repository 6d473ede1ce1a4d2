"""Random typed trees, and random ways to write a tree: what tools/random-terms, random-judgments and random-traces share."""
from clf_trees import (AFFINE, ARROWS, BARE, LINEAR, PERSISTENT, TOP_TYPE, UNIT, act_on, arg, at, erased, eta, family, free_variables,
                       function, function_place, entry_place, entry_places, pair_place, place_of_constant, put, shifted, shifted_telescope)

A, NAT, Z = family("a"), family("nat"), at("z")
MODES = (PERSISTENT, AFFINE, LINEAR)


def s(number):
    return at("s", arg(PERSISTENT, number))


def v(number):
    return family("v", number)


def pi(domain, codomain):
    return function(PERSISTENT, domain, codomain)


def lolli(domain, codomain):
    return function(LINEAR, domain, codomain)


def monad(*entries):
    return ("monad", entries)


NAT_TO_NAT = pi(NAT, NAT)
TRACE = monad((LINEAR, A), (PERSISTENT, NAT))
# The families, each with its kind. Constants `in-f` and `out-f` lead to and from the family `a`, so that each type has an object.
FAMILIES = {"a": (), "nat": (), "v": (NAT,), "e": (NAT, v(at(0))), "q": (NAT_TO_NAT,), "m": (TRACE,)}
CONSTANTS = {
    "z": NAT, "s": NAT_TO_NAT, "base": A, "join": lolli(A, lolli(A, A)), "take": lolli(TOP_TYPE, A), "run": lolli(monad((LINEAR, A)), A),
    "eat": lolli(A, monad()), "mint": monad((LINEAR, A)), "sum": pi(("both", NAT, NAT), NAT), "start": v(Z),
    "two": pi(NAT, lolli(v(at(0)), monad((LINEAR, v(at(1))), (AFFINE, v(s(at(2)))), (PERSISTENT, NAT)))),
    "some": monad((PERSISTENT, NAT), (AFFINE, v(at(0))), (LINEAR, v(s(at(1))))),
    "may": function(AFFINE, A, A), "many": pi(A, A), "with": lolli(("both", A, v(Z)), A), "either": ("both", A, lolli(A, A)),
    "high": pi(pi(NAT_TO_NAT, function(AFFINE, A, A)), A), "x7": pi(NAT, lolli(v(at(0)), v(s(at(1))))), "lolli-o": lolli(lolli(A, A), A),
}


def with_coercions(signature, name, kind):
    """Adds constants that lead from the family `a` to a family, and back."""
    indices = tuple(eta(erased(ty), at(len(kind) - 1 - number)) for number, ty in enumerate(kind))
    into = lolli(A, shifted(family(name, *indices), 1))
    out = lolli(family(name, *indices), A)
    for argument in reversed(kind):
        into, out = pi(argument, into), pi(argument, out)
    signature["in-" + name], signature["out-" + name] = ("constant", into), ("constant", out)


def base_signature():
    signature = {name: ("kind", kind) for name, kind in FAMILIES.items()}
    signature.update((name, ("constant", ty)) for name, ty in CONSTANTS.items())
    for name, kind in FAMILIES.items():
        if name != "a":
            with_coercions(signature, name, kind)
    return signature


def random_signature(chance, names):
    """The signature above, a family `r` with random arguments, and constants of random types."""
    signature = base_signature()
    context = []
    for _ in range(chance.choice([1, 2, 2, 3])):
        context.append((PERSISTENT, Typed(chance, signature).type(context, 1)))
    signature["r"] = ("kind", tuple(ty for _, ty in context))
    with_coercions(signature, "r", signature["r"][1])
    for name in names:
        signature[name] = ("constant", Typed(chance, signature).type([], 2))
    return signature


# ---- random typed objects
class Unfit(Exception):
    """A way that leads to no object of the type."""


class Typed:
    """Random types, and objects of a type. Variables are told by how many are bound before them."""

    def __init__(self, chance, signature):
        self.chance = chance
        self.signature = signature

    # ---- types
    def index(self, context, ty, depth=1):
        return self.object(context, set(), set(), ty, depth)[0]

    def atomic_type(self, context):
        families = [name for name, (sort, _) in self.signature.items() if sort == "kind"]
        name = self.chance.choice(families + ["a", "a", "v"])
        _, kind = self.signature[name]
        return self.family(context, name, kind)

    def family(self, context, name, kind, depth=1):
        indices = []
        left = ("monad", tuple((PERSISTENT, ty) for ty in kind))
        while left[1]:
            (_, ty), later = left[1][0], left[1][1:]
            indices.append(self.index(context, ty, depth))
            left = put(indices[-1], 0, ("monad", later))
        return family(name, *indices)

    def type(self, context, depth):
        pick = self.chance.random()
        if depth == 0 or pick < 0.25:
            return TOP_TYPE if self.chance.random() < 0.12 else self.atomic_type(context)
        if pick < 0.65:
            mode = self.chance.choice(MODES)
            domain = self.type(context, depth - 1) if self.chance.random() < 0.7 else NAT
            return function(mode, domain, self.type(context + [(mode, domain)], depth - 1))
        if pick < 0.78:
            return ("both", self.type(context, depth - 1), self.type(context, depth - 1))
        return ("monad", self.telescope(context, depth - 1))

    def telescope(self, context, depth):
        entries = []
        for _ in range(self.chance.choice([0, 1, 1, 2, 2, 3])):
            mode = self.chance.choice(MODES)
            ty = self.type(context, depth) if self.chance.random() < 0.6 else self.chance.choice([NAT, A])
            entries.append((mode, ty))
            context = context + [(mode, ty)]
        return tuple(entries)

    # ---- objects
    def variable(self, context, place):
        """A variable as a neutral, with its type here."""
        return at(len(context) - 1 - place), shifted(context[place][1], len(context) - place)

    def object(self, context, must, may, ty, depth):
        """An object that uses each linear variable of `must` and, of the affine ones of `may`, those that it answers with."""
        form = ty[0]
        if form == "function":
            mode, place = ty[1], len(context)
            body, used = self.object(context + [(mode, ty[2])], must | ({place} if mode == LINEAR else set()),
                                     may | ({place} if mode == AFFINE else set()), ty[3], depth)
            return ("lam", mode, body), used - {place}
        if form == "both":
            left, used = self.object(context, must, may, ty[1], depth - 1)
            right, also = self.object(context, must, may, ty[2], depth - 1)
            return ("pair", left, right), used | also
        if form == "top":
            return UNIT, set()
        if form == "monad":
            return self.expression(context, must, may, ty[1], depth)
        return self.at_family(context, must, may, ty, depth)

    def at_family(self, context, must, may, goal, depth):
        if depth > 0:
            heads = self.heads(context, must, may)
            self.chance.shuffle(heads)
            for head in heads[:6]:
                try:
                    return self.from_head(context, must, may, head, goal, depth)
                except Unfit:
                    pass
        return self.fallback(context, must, may, goal, depth)

    def heads(self, context, must, may):
        persistent = [place for place, (mode, _) in enumerate(context) if mode == PERSISTENT]
        constants = [name for name, (sort, _) in self.signature.items() if sort == "constant"]
        return (list(must) + list(may) + persistent) * 3 + constants

    def typed_head(self, context, head):
        return (at(head), self.signature[head][1]) if isinstance(head, str) else self.variable(context, head)

    def way(self, ty, is_goal):
        """A random way through functions and pairs to a type that fits, or nothing."""
        if is_goal(ty):
            return []
        if ty[0] == "function":
            rest = self.way(ty[3], is_goal)
            return None if rest is None else ["arg"] + rest
        if ty[0] == "both":
            for sign, part in self.chance.sample([("first", ty[1]), ("second", ty[2])], 2):
                rest = self.way(part, is_goal)
                if rest is not None:
                    return [sign] + rest
        return None

    def from_head(self, context, must, may, head, goal, depth):
        neutral, ty = self.typed_head(context, head)
        way = self.way(ty, lambda found: found[0] == "family" and found[1] == goal[1])
        if way is None:
            raise Unfit
        found, used = self.under_way(context, must - {head}, may - {head}, neutral, ty, way, depth, goal)
        if found[1] != goal:
            raise Unfit
        return found[0], used | ({head} & may)

    def under_way(self, context, must, may, neutral, ty, way, depth, goal=None):
        """A neutral with the eliminations of a way, with its type, and the affine variables that it uses."""
        known = self.known(ty, way, goal) if goal else {}
        linear = [number for number, mode in enumerate(self.modes_on(ty, way)) if mode == LINEAR]
        shares = self.shares(must, linear)
        used = set()
        for number, act in enumerate(way):
            if act != "arg":
                neutral, ty = act_on(neutral, (act,)), ty[1 if act == "first" else 2]
                continue
            mode = ty[1]
            if number in known:
                obj, also = known[number], set()
            else:
                obj, also = self.object(context, shares.get(number, set()), set() if mode == PERSISTENT else may - used, ty[2], depth - 1)
            used |= also
            neutral, ty = act_on(neutral, ("arg", mode, obj)), put(obj, 0, ty[3])
        return (neutral, ty), used

    def modes_on(self, ty, way):
        for act in way:
            yield ty[1] if act == "arg" else None
            ty = ty[3] if act == "arg" else ty[1 if act == "first" else 2]

    def shares(self, must, places):
        if must and not places:
            raise Unfit
        shares = {}
        for place in sorted(must):
            shares.setdefault(self.chance.choice(places), set()).add(place)
        return shares

    def known(self, ty, way, goal):
        """The arguments that the goal's indices tell, by their number on the way."""
        binders = []
        for number, act in enumerate(way):
            if act == "arg":
                binders.append((number, ty))
            ty = ty[3] if act == "arg" else ty[1 if act == "first" else 2]
        found = {}
        for pattern, wanted in zip(ty[2], goal[2]):
            self.match(pattern, wanted, binders, found)
        return {number: obj for number, obj in found.items()}

    def match(self, pattern, wanted, binders, found):
        for back, (number, ty) in enumerate(reversed(binders)):
            if pattern == eta(erased(ty[2]), at(back)) and number not in found:
                found[number] = wanted
                return
        if pattern[0] == "at" == wanted[0] and isinstance(pattern[1], str) and pattern[1] == wanted[1] and len(pattern[2]) == len(wanted[2]):
            for left, right in zip(pattern[2], wanted[2]):
                if left[0] == "arg" == right[0]:
                    self.match(left[2], right[2], binders, found)

    # ---- what is always there
    def fallback(self, context, must, may, goal, depth):
        if goal == NAT and not must:
            return Z, set()
        if goal[1] != "a":
            obj, used = self.plain(context, must, may, depth)
            return at("in-" + goal[1], *(arg(PERSISTENT, index) for index in goal[2]), arg(LINEAR, obj)), used
        return self.plain(context, must, may, depth)

    def plain(self, context, must, may, depth):
        """An object of the type `a`."""
        if not must:
            return at("base"), set()
        if len(must) > 1:
            if self.chance.random() < 0.15:
                return at("take", arg(LINEAR, UNIT)), set()
            places = sorted(must)
            self.chance.shuffle(places)
            cut = self.chance.randrange(1, len(places))
            left, used = self.plain(context, set(places[:cut]), may, depth)
            right, also = self.plain(context, set(places[cut:]), may - used, depth)
            return at("join", arg(LINEAR, left), arg(LINEAR, right)), used | also
        return self.consumed(context, next(iter(must)), may, depth)

    def consumed(self, context, place, may, depth):
        neutral, ty = self.variable(context, place)
        way = self.way(ty, lambda found: found[0] in ("family", "top", "monad"))
        (neutral, ty), used = self.under_way(context, set(), may, neutral, ty, way, depth)
        if ty[0] == "top":
            return at("take", arg(LINEAR, UNIT)), used
        if ty[0] == "family":
            return (neutral if ty[1] == "a" else at("out-" + ty[1], *(arg(PERSISTENT, index) for index in ty[2]), arg(LINEAR, neutral))), used
        modes = tuple(mode for mode, _ in ty[1])
        inner = context + list(ty[1])
        linear = {len(context) + number for number, mode in enumerate(modes) if mode == LINEAR}
        obj, _ = self.plain(inner, linear, set(), depth - 1)
        return at("run", arg(LINEAR, ("monadic", ((modes, neutral),), ((LINEAR, obj),)))), used

    # ---- monads
    def expression(self, context, must, may, entries, depth):
        start, may_at_first, used = len(context), may, set()
        steps = []
        for _ in range(self.chance.choice([0, 0, 1, 1, 2, 3]) if depth > 0 else 0):
            try:
                step, context, must, may, also = self.step(context, must, may, depth)
            except Unfit:
                continue
            steps.append(step)
            used |= also
        entries = shifted_telescope(entries, len(context) - start)
        if must and all(mode != LINEAR for mode, _ in entries):
            obj, also = self.plain(context, must, may, depth - 1)
            steps.append(((), at("eat", arg(LINEAR, obj))))
            used, may, must = used | also, may - also, set()
        result, also = self.result(context, must, may, entries, depth)
        return ("monadic", tuple(steps), tuple(result)), (used | also) & may_at_first

    def step(self, context, must, may, depth):
        heads = self.heads(context, must, may)
        self.chance.shuffle(heads)
        for head in heads:
            neutral, ty = self.typed_head(context, head)
            way = self.way(ty, lambda found: found[0] == "monad")
            if way is None:
                continue
            left = must - {head}
            given = {place for place in left if self.chance.random() < 0.4} if LINEAR in self.modes_on(ty, way) else set()
            (right, found), used = self.under_way(context, given, may - {head}, neutral, ty, way, depth)
            used |= {head} & may
            modes = tuple(mode for mode, _ in found[1])
            places = list(enumerate(modes, len(context)))
            return ((modes, right), context + list(found[1]), (left - given) | {place for place, mode in places if mode == LINEAR},
                    (may - used) | {place for place, mode in places if mode == AFFINE}, used)
        raise Unfit

    def result(self, context, must, may, entries, depth):
        shares = self.shares(must, [number for number, (mode, _) in enumerate(entries) if mode == LINEAR])
        result, used, number = [], set(), 0
        while entries:
            (mode, ty), later = entries[0], entries[1:]
            obj, also = self.object(context, shares.get(number, set()), set() if mode == PERSISTENT else may - used, ty, depth - 1)
            used |= also
            result.append((mode, obj))
            entries = put(obj, 0, ("monad", later))[1]
            number += 1
        return result, used


# ---- random ways to write a core: bare marks, and neutrals for their eta-long forms
class Sugar:
    def __init__(self, chance, signature):
        self.chance = chance
        self.signature = signature

    def mode(self, mode, wanted):
        """A mark may be left out where the place says the mode, and cannot be written of a linear part."""
        return BARE if mode == LINEAR or (mode == wanted and self.chance.random() < 0.6) else mode

    def object(self, local, place, obj):
        """A written object that reads as this core at the place. `local` has nothing for a variable that cannot be named."""
        named = [i for i, found in enumerate(local) if found]
        if obj == UNIT and place == TOP_TYPE and named and self.chance.random() < 0.2:
            return at(self.chance.choice(named))
        if place and obj[0] != "at" and self.chance.random() < 0.5:
            short = contracted(place, obj)
            if short is not None:
                return self.neutral(local, short)[0]
        form = obj[0]
        if form == "lam":
            wanted, domain, codomain = function_place(place)
            return ("lam", self.mode(obj[1], wanted), self.object((domain,) + local, codomain, obj[2]))
        if form == "pair":
            left, right = pair_place(place)
            return ("pair", self.object(local, left, obj[1]), self.object(local, right, obj[2]))
        if form == "at":
            return self.neutral(local, obj)[0]
        return self.expression(local, place, obj) if form == "monadic" else obj

    def neutral(self, local, neutral):
        _, head, spine = neutral
        here = place_of_constant(self.signature, head) if isinstance(head, str) else local[head]
        acts = []
        for act in spine:
            if act[0] == "arg":
                wanted, domain, codomain = function_place(here)
                acts.append(("arg", self.mode(act[1], wanted), self.object(local, domain, act[2])))
                here = codomain
            else:
                acts.append(act)
                here = pair_place(here)[0 if act[0] == "first" else 1]
        return ("at", head, tuple(acts)), here

    def expression(self, local, place, obj):
        steps = []
        for modes, right in obj[1]:
            written, found = self.neutral(local, right)
            entries = entry_places(found)
            steps.append((tuple(self.mode(mode, entry_place(entries, number)[0]) for number, mode in enumerate(modes)), written))
            for number in range(len(modes)):
                local = (entry_place(entries, number)[1],) + local
        entries = entry_places(place)
        result = []
        for number, (mode, entry) in enumerate(obj[2]):
            wanted, simple = entry_place(entries, number)
            result.append((self.mode(mode, wanted), self.object(local, simple, entry)))
        return ("monadic", tuple(steps), tuple(result))

    def class_(self, class_):
        if class_[0] == "constant":
            return "constant", self.type((), class_[1])
        _, entries = self.type((), ("monad", tuple((PERSISTENT, ty) for ty in class_[1])))
        return "kind", tuple(ty for _, ty in entries)

    def type(self, local, ty):
        form = ty[0]
        if form == "family":
            kind = self.signature[ty[1]][1]
            return ("family", ty[1], tuple(self.object(local, erased(kind[number]), index) for number, index in enumerate(ty[2])))
        if form == "function":
            return ("function", ty[1], self.type(local, ty[2]), self.type(self.bound(ty[1], ty[2]) + local, ty[3]))
        if form == "both":
            return ("both", self.type(local, ty[1]), self.type(local, ty[2]))
        if form == "monad":
            entries = []
            for mode, entry in ty[1]:
                entries.append((mode, self.type(local, entry)))
                local = self.bound(mode, entry) + local
            return ("monad", tuple(entries))
        return ty

    def bound(self, mode, ty):
        """The variable of a function or an entry of a type, which can be named where it is persistent."""
        return (erased(ty) if mode == PERSISTENT else None,)


def contracted(simple, obj):
    """The neutral whose eta-long form at the simple type the object is, or nothing."""
    form = simple[0]
    if form == "function" and obj[0] == "lam" and obj[1] == simple[1]:
        body = contracted(simple[3], obj[2])
        if body is None or not body[2] or body[2][-1] != ("arg", simple[1], eta(simple[2], at(0))):
            return None
        neutral = ("at", body[1], body[2][:-1])
        return None if 0 in free_variables(neutral) else shifted(neutral, -1)
    if form == "both" and obj[0] == "pair":
        left, right = contracted(simple[1], obj[1]), contracted(simple[2], obj[2])
        if left and right and left[1] == right[1] and left[2][-1:] == (("first",),) and right[2] == left[2][:-1] + (("second",),):
            return ("at", left[1], left[2][:-1])
        return None
    if form == "monad" and obj[0] == "monadic" and len(obj[1]) == 1:
        return obj[1][0][1] if eta(simple, obj[1][0][1]) == obj else None
    return obj if form == "family" and obj[0] == "at" else None


# ---- random texts of a written tree
NAMES = ["x", "y", "u", "w1", "x1", "x2", "x'", "z", "base", "k/9", "take", "n-o", "in-a", "Big", "o1"]
BLANKS = [" ", " ", " ", " ", "  ", "\n", "\t", " % a comment {!. (\n", "\r\n"]
TIGHT = set("(){}[],.:=\\!")


class Writer:
    """Writes a tree with names, parentheses and blanks at random. An environment has the names of the binders, the newest first."""

    def __init__(self, chance):
        self.chance = chance

    def text(self, tokens):
        text = ""
        for number, token in enumerate(tokens):
            text += token
            if number + 1 < len(tokens):
                is_tight = token in TIGHT or tokens[number + 1] in TIGHT
                text += "" if is_tight and self.chance.random() < 0.7 else self.chance.choice(BLANKS)
        return text

    def may(self, likely):
        return self.chance.random() < likely

    def grouped(self, tokens, needed):
        while needed or self.may(0.06):
            tokens, needed = ["("] + tokens + [")"], False
        return tokens

    # ---- names
    def fresh(self, names, scopes):
        """A name for a new binder over these trees, in which its variable has the number 0: one that hides none of what they mention."""
        used = {names[i - 1] for scope in scopes for i in free_variables(scope) if i > 0}
        return self.chance.choice([name for name in NAMES if name not in used] or ["y" * (len(names) + 3)])

    def name(self, name, names):
        is_hidden = name in names
        return "$" + name if is_hidden or self.may(0.1) else name

    # ---- objects
    def object(self, obj, names, level="whole"):
        """Tokens of an object: `whole`, as an `operand` of an application's head, or as an `atom`."""
        form = obj[0]
        if form == "lam":
            is_used = 0 in free_variables(obj[2])
            name = self.fresh(names, [obj[2]]) if is_used or self.may(0.6) else "_"
            tokens = ["\\"] + ([obj[1]] if obj[1] else []) + [name, "."] + self.object(obj[2], [name] + names)
            return self.grouped(tokens, level != "whole")
        if form == "pair":
            tokens = ["<"] + self.object(obj[1], names) + [","] + self.object(obj[2], names) + [">"]
        elif form == "unit":
            tokens = ["<>"]
        elif form == "monadic":
            tokens = ["{"] + self.expression(obj[1], obj[2], names) + ["}"]
        else:
            tokens, found = self.neutral(obj, names)
            return self.grouped(tokens, level == "atom" and found != "atom")
        return self.grouped(tokens, False)

    def neutral(self, neutral, names):
        _, head, spine = neutral
        tokens, found = [self.name(head, names) if isinstance(head, str) else names[head]], "atom"
        for act in spine:
            if act[0] == "arg":
                if self.may(0.08):
                    tokens = ["("] + tokens + [")"]
                tokens = tokens + ([act[1]] if act[1] else []) + self.object(act[2], names, "atom")
                found = "application"
            else:
                tokens = ["#1" if act[0] == "first" else "#2"] + self.grouped(tokens, found != "atom")
                found = "atom"
        return tokens, found

    def expression(self, steps, result, names):
        tokens = []
        for number, (pattern, right) in enumerate(steps):
            tokens += ["let", "{"]
            inner, pieces = names, []
            later = ("monadic", steps[number + 1:], result)
            for place, mark in enumerate(pattern):
                left = len(pattern) - 1 - place
                is_used = left in free_variables(later)
                name = self.pattern_name(later, inner, left) if is_used or self.may(0.6) else "_"
                inner = [name] + inner
                pieces.append(([mark] if mark else []) + [name])
            tokens += self.listed(pieces) + ["}", "="] + self.neutral(right, names)[0] + ["in"]
            names = inner
        pieces = []
        for mark, entry in result:
            pieces.append([mark] + self.object(entry, names, "atom") if mark else self.object(entry, names))
        return tokens + self.listed(pieces)

    def pattern_name(self, later, names, left):
        """A name for a pattern's binder after which `left` further ones come."""
        used = {names[i - left - 1] for i in free_variables(later) if i > left}
        return self.chance.choice([name for name in NAMES if name not in used] or ["y" * (len(names) + 3)])

    def listed(self, pieces):
        """Entries as a list, of lists perhaps, with a `1` here and there."""
        if not pieces and self.may(0.8):
            return ["1"]
        if len(pieces) == 1 and self.may(0.7):
            return pieces[0]
        groups, left = [], list(pieces)
        while left:
            count = self.chance.randint(1, len(left)) if self.may(0.3) else 1
            group, left = left[:count], left[count:]
            groups.append(self.listed(group) if count > 1 and count < len(pieces) else group[0] if count == 1 else None)
            if groups[-1] is None:
                groups.pop()
                groups += group
        if not groups or self.may(0.08):
            groups.insert(self.chance.randint(0, len(groups)), ["1"])
        tokens = ["["]
        for number, group in enumerate(groups):
            tokens += ([","] if number else []) + group
        return tokens + ["]"]

    # ---- types. A level is what the grammar wants: type, forward, sync, with, atom.
    def type(self, ty, names, level="type"):
        form = ty[0]
        if form == "family":
            tokens = [self.name(ty[1], [])]
            for index in ty[2]:
                tokens += (["!"] if self.may(0.4) else []) + self.object(index, names, "atom")
            return self.grouped(tokens, False)
        if form == "top":
            return self.grouped(["<T>"], False)
        if form == "monad":
            return self.grouped(["{"] + self.telescope(ty[1], names) + ["}"], False)
        if form == "both":
            tokens = self.type(ty[1], names, "atom") + ["&"] + self.type(ty[2], names, "with")
            return self.grouped(tokens, level == "atom")
        return self.function(ty, names, level)

    def function(self, ty, names, level):
        mode, domain, codomain = ty[1:]
        is_named = 0 in free_variables(codomain)
        if mode == PERSISTENT and (is_named or self.may(0.15)) and not self.may(0.15):
            name = self.fresh(names, [codomain])
            tokens = ["Pi", name, ":"] + self.type(domain, names) + ["."] + self.type(codomain, [name] + names)
            return self.grouped(tokens, level not in ("type", "forward"))
        if is_named or self.may(0.2):
            return self.from_product(ty, names, level)
        inner = ["_"] + names
        if mode != AFFINE and self.may(0.2):
            tokens = self.type(codomain, inner, "with") + ["<-" if mode == PERSISTENT else "o-"] + self.type(domain, names, "with")
            return self.grouped(tokens, level != "type")
        tokens = self.type(domain, names, "with") + [ARROWS[mode]] + self.type(codomain, inner, "forward")
        return self.grouped(tokens, level not in ("type", "forward"))

    def from_product(self, ty, names, level):
        """Some functions as one from a product."""
        entries = []
        while ty[0] == "function" and (not entries or self.may(0.5)):
            entries.append((ty[1], ty[2]))
            ty = ty[3]
        # A single linear entry would be no product: it stands beside a 1.
        wants_one = len(entries) == 1 and entries[0][0] == LINEAR
        tokens, names = self.entries(entries, names, [ty], wants_one)
        return self.grouped(["("] + tokens + [")", "-o"] + self.type(ty, names, "forward"), level not in ("type", "forward"))

    def telescope(self, entries, names):
        return self.entries(list(entries), names, [], False)[0]

    def entries(self, entries, names, behind, wants_one):
        """A product of entries, with the names after it. The trees after it are under its binders."""
        tokens, is_open = [], False
        if not entries or wants_one or self.may(0.05):
            tokens = ["1"]
        depth = 0
        for number, (mode, ty) in enumerate(entries):
            rest = self.rest(entries[number + 1:], behind)
            is_named = 0 in free_variables(rest)
            if tokens and not is_open:
                tokens += ["*"]
            is_open = False
            is_last = number + 1 == len(entries)
            if mode == PERSISTENT and (is_named or self.may(0.1)):
                name = self.fresh(names, [rest])
                tokens += ["Exists", name, ":"] + self.type(ty, names) + ["."] + (["1"] if is_last else [])
                is_open = not is_last
            else:
                name = "_"
                tokens += ([mode] if mode else []) + self.type(ty, names, "with")
                if not is_last and self.may(0.15):
                    # the rest in parentheses
                    tokens += ["*", "("]
                    depth += 1
                    is_open = True
            names = [name] + names
        return tokens + [")"] * depth, names

    def rest(self, later, behind):
        """The later entries and what is after them, as one tree."""
        tree = behind[0] if behind else ("monad", ())
        for mode, ty in reversed(later):
            tree = ("function", mode, ty, tree)
        return tree

    def kind(self, kind, names):
        """Tokens of a kind: its arguments, and `type`."""
        if not kind:
            return ["type"]
        rest = kind[1:]
        later = ("monad", tuple((PERSISTENT, ty) for ty in rest))
        if 0 in free_variables(later) or self.may(0.2):
            name = self.fresh(names, [later])
            return ["Pi", name, ":"] + self.type(kind[0], names) + ["."] + self.kind(rest, [name] + names)
        return self.type(kind[0], names, "with") + ["->"] + self.kind(rest, ["_"] + names)

    def class_(self, class_):
        return self.kind(class_[1], []) if class_[0] == "kind" else self.type(class_[1], [])

    def entry(self, name, class_):
        return [name, ":"] + self.class_(class_) + ["."]

    def check(self, obj, ty):
        return ["#check"] + self.object(obj, []) + [":"] + self.type(ty, []) + ["."]
