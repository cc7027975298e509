"""C's operators on bits, and its choice, which the debugger has not: what is around them is computed here, what is in them there."""

import re

from sessions.names import Refusal

TOKEN = re.compile(r'\s+|"[^"]*"?|\'\\?.\'|[@$]?\w+|<<|>>|<=|>=|==|!=|&&|\|\||->|::|.', re.S)
# From the weakest on; each groups from the left.
LEVELS = (("||",), ("&&",), ("|",), ("^",), ("&",), ("==", "!="), ("<", "<=", ">", ">="), ("<<", ">>"), ("+", "-"), ("*", "/", "%"))
OWN = ("|", "^", "&", "<<", ">>", "~", "?")
OPEN, CLOSED = "([{", ")]}"
LEAST, BOUND, DEEPEST = -(2**63), 2**63, 60


class Token(str):
    """A token, and where it stands in its text."""

    def __new__(cls, found):
        made = super().__new__(cls, found[0])
        made.start, made.end = found.span()
        return made


def tokens_of(text):
    return [Token(found) for found in TOKEN.finditer(text) if not found[0].isspace()]


def has_own(text):
    """Whether the text has operators that the debugger has not."""
    return any(token in OWN for token in tokens_of(text))


def evaluate(text, number):
    """The value of a text, None for `undef`; `number` gives that of a part that the debugger knows."""
    return value(tokens_of(text), lambda tokens: number(text[tokens[0].start : tokens[-1].end]), 0)


def value(tokens, number, depth):
    if depth > DEEPEST:
        raise Refusal("3 too deep")
    if not tokens:
        raise Refusal("an operand is missing")
    if not any(token in OWN for token in tokens):
        return number(tokens)
    at = choice_in(tokens)
    if at:
        return value(tokens[at[0] + 1 : at[1]] if value(tokens[: at[0]], number, depth + 1) else tokens[at[1] + 1 :], number, depth + 1)
    for level in LEVELS:
        places = [at for at in binary_places(tokens) if tokens[at] in level]
        if places:
            left, right = tokens[: places[-1]], tokens[places[-1] + 1 :]
            return applied(tokens[places[-1]], value(left, number, depth + 1), value(right, number, depth + 1))
    if tokens[0] in ("~", "-", "!"):
        return inverted(tokens[0], value(tokens[1:], number, depth + 1))
    if tokens[0] == "(" and tokens[-1] == ")":
        return value(tokens[1:-1], number, depth + 1)
    raise Refusal("these operators may stand around what the debugger knows, and in round brackets, but in nothing else")


def outer(tokens):
    """The places outside of all brackets."""
    depth, found = 0, []
    for at, token in enumerate(tokens):
        depth -= token in CLOSED
        if depth == 0 and token not in OPEN and token not in CLOSED:
            found.append(at)
        depth += token in OPEN
    return found


def binary_places(tokens):
    """Where operators stand that have an operand on both sides."""
    signs = {sign for level in LEVELS for sign in level}
    return [at for at in outer(tokens) if at > 0 and tokens[at] in signs and not (tokens[at - 1] in signs or tokens[at - 1] in OPEN + "~!?:")]


def choice_in(tokens):
    """Where the first ? and its : stand, or None."""
    places = [at for at in outer(tokens) if tokens[at] in ("?", ":")]
    if not places or tokens[places[0]] != "?":
        return None
    depth = 0
    for at in places:
        depth += 1 if tokens[at] == "?" else -1
        if depth == 0:
            return places[0], at
    raise Refusal("a : is missing after ?")


def inverted(sign, number):
    if number is None:
        return None
    return bounded({"~": ~number, "-": -number, "!": int(number == 0)}[sign])


def applied(sign, left, right):
    if left is None or right is None:
        return None
    if sign in ("/", "%"):
        return divided(sign, left, right)
    if sign in ("<<", ">>") and not 0 <= right < 64:
        return None
    return bounded(OPERATIONS[sign](left, right))


OPERATIONS = {
    "||": lambda a, b: int(bool(a or b)), "&&": lambda a, b: int(bool(a and b)), "|": lambda a, b: a | b, "^": lambda a, b: a ^ b,
    "&": lambda a, b: a & b, "==": lambda a, b: int(a == b), "!=": lambda a, b: int(a != b), "<": lambda a, b: int(a < b),
    "<=": lambda a, b: int(a <= b), ">": lambda a, b: int(a > b), ">=": lambda a, b: int(a >= b), "<<": lambda a, b: a << b,
    ">>": lambda a, b: a >> b, "+": lambda a, b: a + b, "-": lambda a, b: a - b, "*": lambda a, b: a * b,
}


def divided(sign, left, right):
    """Towards zero, as the debugger and C do."""
    if right == 0:
        return None
    quotient = abs(left) // abs(right)
    quotient = quotient if (left < 0) == (right < 0) else -quotient
    return bounded(quotient if sign == "/" else left - quotient * right)


def bounded(number):
    return number if LEAST <= number < BOUND else None
