"""Two judges of objects and types. One follows the rules of typing and tries all splits of what may be used; it says yes or
no. The other hands on what is left, as docs/language.md says ("What may be used"), and says what is wrong first, and where.

A context is a list of (mode, type), the oldest entry first. What is held is said by the numbers of the entries.
"""
import itertools

from clf_trees import AFFINE, LINEAR, PERSISTENT, TOP_TYPE, are_joined, name_text, object_text, put, shifted, shifted_telescope


# ---- the rules
def splits(held):
    held = sorted(held)
    for count in range(len(held) + 1):
        for part in itertools.combinations(held, count):
            yield frozenset(part), frozenset(held) - frozenset(part)


class TooLong(Exception):
    """More splits than the judge tries."""


class Rules:
    """Which objects have a type and which types are formed. `held` has the affine and linear entries that are held."""

    def __init__(self, signature, tries=20000):
        self.signature = signature
        self.tries = tries

    def is_weak(self, context, held):
        return all(context[place][0] != LINEAR for place in held)

    def may_use(self, mode, context, held):
        return not held if mode == PERSISTENT else mode == LINEAR or self.is_weak(context, held)

    def held_by(self, mode, context, held):
        """The parts of what is held that an argument or entry of this mode may use, with the rest."""
        return [(part, rest) for part, rest in splits(held) if self.may_use(mode, context, part)]

    def new(self, context, entries, held):
        return context + list(entries), held | {len(context) + number for number, (mode, _) in enumerate(entries) if mode != PERSISTENT}

    def has_type(self, context, held, obj, ty):
        self.tries -= 1
        if self.tries < 0:
            raise TooLong
        form = obj[0]
        if form == "lam":
            if ty[0] != "function" or ty[1] != obj[1]:
                return False
            context, held = self.new(context, [(obj[1], ty[2])], held)
            return self.has_type(context, held, obj[2], ty[3])
        if form == "pair":
            return ty[0] == "both" and self.has_type(context, held, obj[1], ty[1]) and self.has_type(context, held, obj[2], ty[2])
        if form == "unit":
            return ty == TOP_TYPE
        if form == "monadic":
            return ty[0] == "monad" and self.has_result(context, held, obj[1], obj[2], ty[1])
        found = self.type_of(context, held, obj[1], obj[2]) if ty[0] == "family" else None
        return found is not None and found[0] == "family" and found[1] == ty[1] and len(found[2]) == len(ty[2]) and all(
            are_joined(left, right) for left, right in zip(found[2], ty[2]))

    def type_of(self, context, held, head, spine):
        """The type of a head under a spine that uses all that is held and linear, or nothing."""
        if not spine:
            if isinstance(head, str):
                sort, class_ = self.signature[head]
                return class_ if sort == "constant" and self.is_weak(context, held) else None
            place = len(context) - 1 - head
            mode, ty = context[place]
            is_there = mode == PERSISTENT or place in held
            return shifted(ty, head + 1) if is_there and self.is_weak(context, held - {place}) else None
        last = spine[-1]
        if last[0] != "arg":
            ty = self.type_of(context, held, head, spine[:-1])
            return ty[1 if last[0] == "first" else 2] if ty and ty[0] == "both" else None
        for part, rest in self.held_by(last[1], context, held):
            ty = self.type_of(context, rest, head, spine[:-1])
            if ty and ty[0] == "function" and ty[1] == last[1] and self.has_type(context, part, last[2], ty[2]):
                return put(last[2], 0, ty[3])
        return None

    def has_result(self, context, held, steps, result, entries):
        if not steps:
            return self.is_tuple(context, held, result, entries)
        (modes, right), later = steps[0], steps[1:]
        for part, rest in splits(held):
            ty = self.type_of(context, part, right[1], right[2])
            if ty and ty[0] == "monad" and tuple(mode for mode, _ in ty[1]) == modes:
                inner, then_held = self.new(context, ty[1], rest)
                if self.has_result(inner, then_held, later, result, shifted_telescope(entries, len(modes))):
                    return True
        return False

    def is_tuple(self, context, held, result, entries):
        if not result or not entries:
            return not result and not entries and self.is_weak(context, held)
        (mode, obj), (wanted, ty) = result[0], entries[0]
        if mode != wanted:
            return False
        for part, rest in self.held_by(mode, context, held):
            if self.has_type(context, part, obj, ty) and self.is_tuple(context, rest, result[1:], put(obj, 0, ("monad", entries[1:]))[1]):
                return True
        return False

    def is_formed(self, context, ty):
        form = ty[0]
        if form == "family":
            sort, kind = self.signature[ty[1]]
            return sort == "kind" and self.are_indices(context, ty[2], tuple((PERSISTENT, argument) for argument in kind))
        if form == "function":
            return self.is_formed(context, ty[2]) and self.is_formed(context + [(ty[1], ty[2])], ty[3])
        if form == "both":
            return self.is_formed(context, ty[1]) and self.is_formed(context, ty[2])
        return form == "top" or self.is_formed_telescope(context, ty[1])

    def are_indices(self, context, indices, arguments):
        if not indices or not arguments:
            return not indices and not arguments
        return self.has_type(context, frozenset(), indices[0], arguments[0][1]) and self.are_indices(
            context, indices[1:], put(indices[0], 0, ("monad", arguments[1:]))[1])

    def is_formed_telescope(self, context, entries):
        if not entries:
            return True
        return self.is_formed(context, entries[0][1]) and self.is_formed_telescope(context + [entries[0]], entries[1:])

    def check(self, obj, ty):
        return self.is_formed([], ty) and self.has_type([], frozenset(), obj, ty)


# ---- what is left, and what is wrong first
class Refused(Exception):
    def __init__(self, cause, path):
        super().__init__(cause)
        self.cause, self.path = cause, path

    def text(self):
        return f"{self.cause} at {'.'.join(str(number) for number in self.path)}"


class Leftovers:
    """Checks of parts, each of which answers what is still held after it, and whether it could take more."""

    def __init__(self, signature):
        self.signature = signature

    def object(self, context, held, obj, ty, path):
        form = obj[0]
        if form == "lam":
            if ty[0] != "function":
                raise Refused("not a function", path)
            if ty[1] != obj[1]:
                raise Refused("mode differs", path)
            entries = [(obj[1], ty[2])]
            inner, left = self.new(context, entries, held)
            left, slack = self.object(inner, left, obj[2], ty[3], path + [0])
            return self.closed(context, entries, left, slack, path), slack
        if form == "pair":
            if ty[0] != "both":
                raise Refused("not a pair", path)
            left, slack = self.object(context, held, obj[1], ty[1], path + [0])
            right, also = self.object(context, held, obj[2], ty[2], path + [1])
            return self.common(context, left, slack, right, also, path), slack and also
        if form == "unit":
            if ty != TOP_TYPE:
                raise Refused("not a unit", path)
            return held, True
        if form == "monadic":
            if ty[0] != "monad":
                raise Refused("not a monad", path)
            return self.expression(context, held, obj[1], obj[2], ty[1], path, 0)
        return self.atomic(context, held, obj, ty, path)

    def atomic(self, context, held, obj, ty, path):
        found, left, slack = self.neutral(context, held, obj, path)
        if ty[0] != "family" or found[0] != "family":
            raise Refused("not atomic", path)
        if found[1] != ty[1]:
            raise Refused(f"family differs: {name_text(found[1])} and {name_text(ty[1])}", path)
        for one, other in zip(found[2], ty[2]):
            if not are_joined(one, other):
                raise Refused(f"index differs: {object_text(one, len(context))} and {object_text(other, len(context))}", path)
        return left, slack

    def new(self, context, entries, held):
        return context + list(entries), held | {len(context) + number for number, (mode, _) in enumerate(entries) if mode != PERSISTENT}

    def closed(self, context, entries, left, slack, path):
        """What is left after the scope of some entries, each linear one of which has to be used, the newest first."""
        for number, (mode, _) in reversed(list(enumerate(entries, len(context)))):
            if mode == LINEAR and number in left and not slack:
                raise Refused(f"unused x{number + 1}", path)
        return frozenset(place for place in left if place < len(context))

    def common(self, context, left, slack, right, also, path):
        """What is left after a pair, from what is left after each part."""
        for place in sorted(left ^ right, reverse=True):
            if context[place][0] == LINEAR and not (slack if place in left else also):
                raise Refused(f"pairs differ on x{place + 1}", path)
        return left & right

    def allowed(self, context, held, mode):
        return held if mode == LINEAR else frozenset() if mode == PERSISTENT else frozenset(
            place for place in held if context[place][0] == AFFINE)

    def part(self, context, held, mode, obj, ty, path):
        """An argument or an entry of a tuple."""
        given = self.allowed(context, held, mode)
        left, slack = self.object(context, given, obj, ty, path)
        return held - (given - left), slack and mode == LINEAR

    def neutral(self, context, held, neutral, path):
        _, head, spine = neutral
        slack = False
        if isinstance(head, str):
            ty = self.signature[head][1]
        else:
            place = len(context) - 1 - head
            mode, ty = context[place]
            if mode != PERSISTENT and place not in held:
                raise Refused(f"not held x{place + 1}", path)
            held, ty = held - {place}, shifted(ty, head + 1)
        for number, act in enumerate(spine):
            here = path + [number]
            if act[0] != "arg":
                if ty[0] != "both":
                    raise Refused("not a pair", here)
                ty = ty[1 if act[0] == "first" else 2]
                continue
            if ty[0] != "function":
                raise Refused("not a function", here)
            if ty[1] != act[1]:
                raise Refused("mode differs", here)
            held, also = self.part(context, held, act[1], act[2], ty[2], here)
            slack, ty = slack or also, put(act[2], 0, ty[3])
        return ty, held, slack

    def expression(self, context, held, steps, result, entries, path, number):
        if not steps:
            return self.tuple(context, held, result, entries, path, number)
        (modes, right), here = steps[0], path + [number]
        ty, held, slack = self.neutral(context, held, right, here)
        if ty[0] != "monad":
            raise Refused("not a monad", here)
        if len(ty[1]) != len(modes):
            raise Refused("width differs", here)
        if tuple(mode for mode, _ in ty[1]) != modes:
            raise Refused("mode differs", here)
        inner, held = self.new(context, ty[1], held)
        left, also = self.expression(inner, held, steps[1:], result, shifted_telescope(entries, len(modes)), path, number + 1)
        return self.closed(context, ty[1], left, also, here), slack or also

    def tuple(self, context, held, result, entries, path, before):
        slack, width = False, len(entries)
        for number, (mode, obj) in enumerate(result[:width]):
            wanted, ty = entries[0]
            if mode != wanted:
                raise Refused("mode differs", path + [before + number])
            held, also = self.part(context, held, mode, obj, ty, path + [before + number])
            slack, entries = slack or also, put(obj, 0, ("monad", entries[1:]))[1]
        if len(result) != width:
            raise Refused("width differs", path)
        return held, slack

    # ---- types and kinds
    def type(self, context, ty, path):
        form = ty[0]
        if form == "family":
            self.indices(context, ty[2], tuple((PERSISTENT, argument) for argument in self.signature[ty[1]][1]), path)
        elif form == "function":
            self.type(context, ty[2], path + [0])
            self.type(context + [(ty[1], ty[2])], ty[3], path + [1])
        elif form == "both":
            self.type(context, ty[1], path + [0])
            self.type(context, ty[2], path + [1])
        elif form == "monad":
            self.telescope(context, ty[1], path)

    def indices(self, context, indices, arguments, path):
        wanted = len(arguments)
        for number, index in enumerate(indices[:wanted]):
            self.object(context, frozenset(), index, arguments[0][1], path + [number])
            arguments = put(index, 0, ("monad", arguments[1:]))[1]
        if len(indices) != wanted:
            raise Refused("family arity", path)

    def telescope(self, context, entries, path):
        for number, entry in enumerate(entries):
            self.type(context, entry[1], path + [number])
            context = context + [entry]

    def check(self, obj, ty):
        self.type([], ty, [0])
        self.object([], frozenset(), obj, ty, [1])

    def equation(self, left, right, ty):
        self.type([], ty, [0])
        self.object([], frozenset(), left, ty, [1])
        self.object([], frozenset(), right, ty, [2])

    def class_(self, class_):
        sort, body = class_
        if sort == "constant":
            self.type([], body, [0])
        else:
            self.telescope([], tuple((PERSISTENT, ty) for ty in body), [0])
