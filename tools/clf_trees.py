"""What the random comparisons share: trees of the calculus, their text, the explicit reading, and the running of files.

All of it is written from docs/language.md and from the rules, and knows nothing of the program.

Trees are nested tuples. Variables are numbers, and 0 is the newest; constants and families are names.

    type      ("family", name, indices) ("function", mode, A, B) ("both", A, B) ("top",) ("monad", ((mode, A), ..))
    object    ("lam", mode, N) ("pair", N, M) ("unit",) ("monadic", steps, tuple) ("at", head, spine)
    steps     ((modes, neutral), ..)      tuple    ((mode, N), ..)
    spine     (("arg", mode, N) or ("first",) or ("second",), ..)

A neutral is an object with "at". A mode is PERSISTENT, AFFINE or LINEAR; in a written tree it is also BARE where no mark
stands, and a neutral stands there for its eta-long form. A signature is a dictionary from names to ("kind", types) or
("constant", type).
"""
import os
import subprocess
import sys
import tempfile

sys.dont_write_bytecode = True
TOP = os.path.dirname(os.path.dirname(os.path.abspath(__file__)))
PROGRAM = os.environ.get("CELF_PROGRAM", os.path.join(TOP, "celf"))
PERSISTENT, AFFINE, LINEAR, BARE = "!", "@", "", None
ARROWS = {PERSISTENT: "->", AFFINE: "-@", LINEAR: "-o"}
UNIT = ("unit",)
TOP_TYPE = ("top",)


def at(head, *spine):
    return ("at", head, spine)


def arg(mode, obj):
    return ("arg", mode, obj)


def family(name, *indices):
    return ("family", name, indices)


def function(mode, domain, codomain):
    return ("function", mode, domain, codomain)


# ---- renaming
def renamed(tree, images, under=0):
    """The tree, in which the free variable i is images(i). `under` is how many binders of the tree are passed already."""
    form = tree[0]
    if form == "lam":
        return ("lam", tree[1], renamed(tree[2], images, under + 1))
    if form == "function":
        return ("function", tree[1], renamed(tree[2], images, under), renamed(tree[3], images, under + 1))
    if form in ("pair", "both"):
        return (form, renamed(tree[1], images, under), renamed(tree[2], images, under))
    if form == "family":
        return ("family", tree[1], tuple(renamed(index, images, under) for index in tree[2]))
    if form == "monad":
        return ("monad", tuple((mode, renamed(ty, images, under + place)) for place, (mode, ty) in enumerate(tree[1])))
    if form == "monadic":
        steps = []
        for modes, right in tree[1]:
            steps.append((modes, renamed(right, images, under)))
            under += len(modes)
        return ("monadic", tuple(steps), tuple((mode, renamed(obj, images, under)) for mode, obj in tree[2]))
    if form == "at":
        head = tree[1]
        if not isinstance(head, str) and head >= under:
            head = images(head - under) + under
        return ("at", head, tuple(("arg", act[1], renamed(act[2], images, under)) if act[0] == "arg" else act for act in tree[2]))
    return tree


def shifted(tree, count, above=0):
    """The variables from `above` on are higher by `count`."""
    return tree if count == 0 else renamed(tree, lambda i: i if i < above else i + count)


def shifted_telescope(entries, count):
    return shifted(("monad", entries), count)[1]


def free_variables(tree):
    found = set()

    def see(i):
        found.add(i)
        return i
    renamed(tree, see)
    return found


def occurs_later(entries):
    """Whether the first entry's variable occurs in a later one."""
    return bool(entries[1:]) and 0 in free_variables(("monad", entries[1:]))


# ---- hereditary substitution
class NoValue(Exception):
    """What has no hereditary substitution."""


def put(new, k, tree):
    """The tree with `new` put for the variable k; the variables above k fall by one."""
    form = tree[0]
    if form == "lam":
        return ("lam", tree[1], put(shifted(new, 1), k + 1, tree[2]))
    if form == "function":
        return ("function", tree[1], put(new, k, tree[2]), put(shifted(new, 1), k + 1, tree[3]))
    if form in ("pair", "both"):
        return (form, put(new, k, tree[1]), put(new, k, tree[2]))
    if form == "family":
        return ("family", tree[1], tuple(put(new, k, index) for index in tree[2]))
    if form == "monad":
        return ("monad", tuple((mode, put(shifted(new, place), k + place, ty)) for place, (mode, ty) in enumerate(tree[1])))
    if form == "monadic":
        steps, result = put_in_expression(new, k, tree[1], tree[2])
        return ("monadic", steps, result)
    return value(new, k, tree) if form == "at" else tree


def value(new, k, neutral):
    """A neutral after the substitution: an object where its head is replaced."""
    _, head, spine = neutral
    acts = tuple(("arg", act[1], put(new, k, act[2])) if act[0] == "arg" else act for act in spine)
    if head != k:
        return ("at", head if isinstance(head, str) or head < k else head - 1, acts)
    here = new
    for act in acts:
        if act[0] == "arg" and here[0] == "lam" and here[1] == act[1]:
            here = put(act[2], 0, here[2])
        elif act[0] in ("first", "second") and here[0] == "pair":
            here = here[1 if act[0] == "first" else 2]
        else:
            raise NoValue
    return here


def put_in_expression(new, k, steps, result):
    if not steps:
        return (), tuple((mode, put(new, k, obj)) for mode, obj in result)
    (modes, right), width = steps[0], len(steps[0][0])
    later, result = put_in_expression(shifted(new, width), k + width, steps[1:], result)
    right = value(new, k, right)
    if right[0] == "at":
        return ((modes, right),) + later, result
    if right[0] != "monadic" or tuple(mode for mode, _ in right[2]) != tuple(modes):
        raise NoValue
    return let_for(right[1], right[2], later, result)


def let_for(first_steps, entries, later, result):
    """The steps of a right side come first; its tuple is put for the variables of the pattern in what comes later."""
    bound = sum(len(modes) for modes, _ in first_steps)
    width = len(entries)
    _, later, result = shifted(("monadic", later, result), bound, width)
    for place in reversed(range(width)):
        later, result = put_in_expression(shifted(entries[place][1], place), 0, later, result)
    return tuple(first_steps) + later, result


# ---- simple types and eta-long forms
def erased(ty):
    if ty[0] == "family":
        return ("family", ty[1], ())
    if ty[0] == "function":
        return ("function", ty[1], erased(ty[2]), erased(ty[3]))
    if ty[0] == "both":
        return ("both", erased(ty[1]), erased(ty[2]))
    if ty[0] == "monad":
        return ("monad", tuple((mode, erased(entry)) for mode, entry in ty[1]))
    return ty


def act_on(neutral, act):
    return ("at", neutral[1], neutral[2] + (act,))


def eta(simple, neutral):
    """The eta-long form of a neutral at a simple type."""
    form = simple[0]
    if form == "function":
        return ("lam", simple[1], eta(simple[3], act_on(shifted(neutral, 1), ("arg", simple[1], eta(simple[2], at(0))))))
    if form == "both":
        return ("pair", eta(simple[1], act_on(neutral, ("first",))), eta(simple[2], act_on(neutral, ("second",))))
    if form == "top":
        return UNIT
    if form == "monad":
        width = len(simple[1])
        return ("monadic", ((tuple(mode for mode, _ in simple[1]), neutral),),
                tuple((mode, eta(ty, at(width - 1 - place))) for place, (mode, ty) in enumerate(simple[1])))
    return neutral


# ---- the explicit reading: a bare part takes the mode of its place, and a neutral is written out
def function_place(place):
    return place[1:] if place and place[0] == "function" else (LINEAR, None, None)


def pair_place(place):
    return place[1:] if place and place[0] == "both" else (None, None)


def entry_places(place):
    return place[1] if place and place[0] == "monad" else ()


def entry_place(entries, at_place):
    return entries[at_place] if at_place < len(entries) else (LINEAR, None)


def marked(written, mode):
    return mode if written is BARE else written


def place_of_constant(signature, name):
    sort, class_ = signature[name]
    return erased(class_) if sort == "constant" else None


def read_neutral(signature, local, neutral):
    """A written neutral without its eta-long form, with the simple type that it has. `local` has the simple types, the newest first."""
    _, head, spine = neutral
    here = place_of_constant(signature, head) if isinstance(head, str) else local[head]
    acts = []
    for act in spine:
        if act[0] == "arg":
            mode, domain, codomain = function_place(here)
            acts.append(("arg", marked(act[1], mode), read(signature, local, domain, act[2])))
            here = codomain
        else:
            acts.append(act)
            here = pair_place(here)[0 if act[0] == "first" else 1]
    return ("at", head, tuple(acts)), here


def read(signature, local, place, obj):
    """The core of a written object at a place, which is a simple type or None."""
    form = obj[0]
    if form == "lam":
        mode, domain, codomain = function_place(place)
        return ("lam", marked(obj[1], mode), read(signature, (domain,) + local, codomain, obj[2]))
    if form == "pair":
        left, right = pair_place(place)
        return ("pair", read(signature, local, left, obj[1]), read(signature, local, right, obj[2]))
    if form == "at":
        neutral, _ = read_neutral(signature, local, obj)
        return neutral if place is None else eta(place, neutral)
    if form == "monadic":
        steps = []
        for pattern, right in obj[1]:
            neutral, found = read_neutral(signature, local, right)
            entries = entry_places(found)
            steps.append((tuple(marked(mode, entry_place(entries, number)[0]) for number, mode in enumerate(pattern)), neutral))
            for number in range(len(pattern)):
                local = (entry_place(entries, number)[1],) + local
        entries = entry_places(place)
        result = []
        for number, (mode, entry) in enumerate(obj[2]):
            wanted, simple = entry_place(entries, number)
            result.append((marked(mode, wanted), read(signature, local, simple, entry)))
        return ("monadic", tuple(steps), tuple(result))
    return obj


def read_type(signature, local, ty):
    form = ty[0]
    if form == "family":
        sort, kind = signature[ty[1]]
        places = [erased(argument) for argument in kind] if sort == "kind" else []
        return ("family", ty[1], tuple(read(signature, local, places[number] if number < len(places) else None, index)
                                       for number, index in enumerate(ty[2])))
    if form == "function":
        domain = read_type(signature, local, ty[2])
        return ("function", ty[1], domain, read_type(signature, (erased(domain),) + local, ty[3]))
    if form == "both":
        return ("both", read_type(signature, local, ty[1]), read_type(signature, local, ty[2]))
    if form == "monad":
        entries = []
        for mode, entry in ty[1]:
            entries.append((mode, read_type(signature, local, entry)))
            local = (erased(entries[-1][1]),) + local
        return ("monad", tuple(entries))
    return ty


def read_class(signature, class_):
    sort, body = class_
    if sort == "constant":
        return sort, read_type(signature, (), body)
    _, entries = read_type(signature, (), ("monad", tuple((PERSISTENT, argument) for argument in body)))
    return sort, tuple(ty for _, ty in entries)


# ---- printed text, of trees with all modes
def is_variable_word(name):
    return name[0] == "x" and name[1:].isdigit()


def name_text(name):
    return "$" + name if is_variable_word(name) else name


def listed(texts):
    return "1" if not texts else texts[0] if len(texts) == 1 else "[" + ", ".join(texts) + "]"


def is_atom(obj):
    return obj[0] in ("pair", "unit", "monadic") or (obj[0] == "at" and (not obj[2] or obj[2][-1][0] != "arg"))


def atom_text(obj, level):
    text = object_text(obj, level)
    return text if is_atom(obj) else f"({text})"


def object_text(obj, level=0):
    form = obj[0]
    if form == "lam":
        return f"\\{obj[1]}x{level + 1}. {object_text(obj[2], level + 1)}"
    if form == "pair":
        return f"<{object_text(obj[1], level)}, {object_text(obj[2], level)}>"
    if form == "unit":
        return "<>"
    if form == "monadic":
        text = ""
        for modes, right in obj[1]:
            pattern = listed([f"{mode}x{level + 1 + number}" for number, mode in enumerate(modes)])
            text += f"let {{{pattern}}} = {object_text(right, level)} in "
            level += len(modes)
        entries = [object_text(entry, level) if mode == LINEAR else mode + atom_text(entry, level) for mode, entry in obj[2]]
        return f"{{{text}{listed(entries)}}}"
    text, is_atomic = name_text(obj[1]) if isinstance(obj[1], str) else f"x{level - obj[1]}", True
    for act in obj[2]:
        if act[0] == "arg":
            text, is_atomic = f"{text} {act[1]}{atom_text(act[2], level)}", False
        else:
            sign = "#1" if act[0] == "first" else "#2"
            text, is_atomic = f"{sign} {text if is_atomic else '(' + text + ')'}", True
    return text


def type_text(ty, level=0, place="whole"):
    form = ty[0]
    if form == "family":
        return name_text(ty[1]) + "".join(" !" + atom_text(index, level) for index in ty[2])
    if form == "top":
        return "<T>"
    if form == "monad":
        return "{" + (telescope_text(ty[1], level) or "1") + "}"
    if form == "both":
        text = f"{type_text(ty[1], level, 'factor')} & {type_text(ty[2], level, 'operand')}"
        return f"({text})" if place == "factor" else text
    if ty[1] == PERSISTENT and 0 in free_variables(ty[3]):
        text = f"Pi x{level + 1}: {type_text(ty[2], level)}. {type_text(ty[3], level + 1)}"
    else:
        text = f"{type_text(ty[2], level, 'operand')} {ARROWS[ty[1]]} {type_text(ty[3], level + 1)}"
    return text if place == "whole" else f"({text})"


def telescope_text(entries, level):
    if not entries:
        return ""
    (mode, ty), later = entries[0], entries[1:]
    rest = telescope_text(later, level + 1)
    if mode == PERSISTENT and occurs_later(entries):
        return f"Exists x{level + 1}: {type_text(ty, level)}. {rest}"
    return mode + type_text(ty, level, "operand") + (" * " + rest if later else "")


def kind_text(kind, level=0):
    if not kind:
        return "type"
    rest = kind_text(kind[1:], level + 1)
    if occurs_later(tuple((PERSISTENT, ty) for ty in kind)):
        return f"Pi x{level + 1}: {type_text(kind[0], level)}. {rest}"
    return f"{type_text(kind[0], level, 'operand')} -> {rest}"


def entry_text(name, class_):
    return f"{name} : {kind_text(class_[1]) if class_[0] == 'kind' else type_text(class_[1])}."


def check_text(obj, ty):
    return f"check: {object_text(obj)} : {type_text(ty)}."


# ---- exchanges of independent steps
def exchanges(tree):
    """Each tree that one exchange of two neighbouring independent steps makes of an object, at whatever place."""
    form = tree[0]
    if form == "lam":
        for body in exchanges(tree[2]):
            yield ("lam", tree[1], body)
    elif form == "pair":
        for left in exchanges(tree[1]):
            yield ("pair", left, tree[2])
        for right in exchanges(tree[2]):
            yield ("pair", tree[1], right)
    elif form == "at":
        for number, act in enumerate(tree[2]):
            if act[0] == "arg":
                for obj in exchanges(act[2]):
                    yield ("at", tree[1], tree[2][:number] + (("arg", act[1], obj),) + tree[2][number + 1:])
    elif form == "monadic":
        yield from expression_exchanges(tree[1], tree[2])


def expression_exchanges(steps, result):
    for number, (modes, right) in enumerate(steps):
        for other in exchanges(right):
            yield ("monadic", steps[:number] + ((modes, other),) + steps[number + 1:], result)
    for number, (mode, obj) in enumerate(result):
        for other in exchanges(obj):
            yield ("monadic", steps, result[:number] + ((mode, other),) + result[number + 1:])
    for number in range(len(steps) - 1):
        (first, left), (second, right) = steps[number], steps[number + 1]
        p, q = len(first), len(second)
        if any(i < p for i in free_variables(right)):
            continue
        crossed = renamed(("monadic", steps[number + 2:], result), lambda i, p=p, q=q: i + p if i < q else i - q if i < p + q else i)
        yield ("monadic", steps[:number] + ((second, shifted(right, -p)), (first, shifted(left, q))) + crossed[1], crossed[2])


class TooMany(Exception):
    """More trees than a comparison looks at."""


def joined(obj, limit=20000):
    """All trees that exchanges make of an object."""
    seen, ahead = {obj}, [obj]
    while ahead:
        for other in exchanges(ahead.pop()):
            if other not in seen:
                seen.add(other)
                ahead.append(other)
                if len(seen) > limit:
                    raise TooMany
    return seen


def are_joined(left, right):
    return left == right or right in joined(left)


# ---- running
class Case:
    """A file, what has to be answered, and the status."""

    def __init__(self, name, text, output, status):
        self.name, self.text, self.output, self.status = name, text, output, status


def first_difference(wanted, found):
    wanted, found = wanted.splitlines(), found.splitlines()
    for number in range(max(len(wanted), len(found))):
        pair = [lines[number] if number < len(lines) else "no line" for lines in (wanted, found)]
        if pair[0] != pair[1]:
            return f"line {number + 1}:\n    wanted {pair[0]}\n    found  {pair[1]}"
    return "the same lines"


def run_case(case, folder):
    """What is wrong with the answer, or nothing."""
    path = os.path.join(folder, case.name + ".clf")
    with open(path, "w", encoding="ascii") as file:
        file.write(case.text)
    done = subprocess.run([PROGRAM, path], stdout=subprocess.PIPE, timeout=600)
    output = done.stdout.decode()
    if output != case.output or done.returncode != case.status:
        return f"{case.name}: status {done.returncode}, wanted {case.status}; {first_difference(case.output, output)}\n{case.text}"
    return None


def write_case(case, folder):
    for ending, text in ((".clf", case.text), (".clf.stdout", case.output)):
        with open(os.path.join(folder, case.name + ending), "w", encoding="ascii") as file:
            file.write(text)


def run_cases(cases, folder=None):
    """Runs each case and answers whether all went well; with a folder it writes the cases there and runs nothing."""
    if folder is not None:
        os.makedirs(folder, exist_ok=True)
        for case in cases:
            write_case(case, folder)
        return True
    with tempfile.TemporaryDirectory() as temporary:
        for case in cases:
            wrong = run_case(case, temporary)
            if wrong is not None:
                print(wrong)
                return False
    return True


def words_of(words, count, chance):
    """The words of the command line: COUNT, SEED and `--write FOLDER`."""
    folder = None
    if "--write" in words:
        place = words.index("--write")
        folder = words[place + 1]
        words = words[:place] + words[place + 2:]
    seed = int(words[1]) if len(words) > 1 else chance.randrange(2**32)
    print(f"seed {seed}")
    return (int(words[0]) if words else count), seed, folder
