"""Quotients by digits of one bit.

Nonrestoring: each step takes the divisor off the size of the remainder, or of its complement, so that a step is one sum, and
exclusive ors with the sign of the last remainder go into the same tables: with u the new remainder, v = u xor its sign is never
below 0, and the next u is 2 v + digit - b. Written is the complement of u, which is b + ~(2 v + digit): then the divisor is read as
it is, and a table of the sum takes the exclusive or.
"""
from .writer import Text


def step(text: Text, size: str, bit: str, divisor: str, width: int) -> tuple[str, str, str]:
    """One step: from the complement of the remainder's size, and the complement of the next bit of the number, to the complement
    of the next size, the sign of the remainder, and its complement."""
    shifted = text.bits(f"{{{size}, {bit}}}", width + 1)
    inner = text.bits(f"{{1'b0, {divisor}}} + {shifted}", width + 1)
    outer = text.bits(f"~{inner}", width + 1)
    less = text.bits(f"~{outer}", width + 1)
    sign = text.bit(f"~{less}[{width}]")
    return text.bits(f"{less}[{width - 1}:0] ^ {{{width}{{{sign}}}}}", width), sign, less


def quotient(text: Text, number: list[str], divisor: str, width: int) -> tuple[list[str], str, str]:
    """The digits of a number, its highest bit first, by a divisor of so many bits; the complement of the last remainder's size, and
    whether the remainder is below 0."""
    size, parity, digits = f"{width}'d{(1 << width) - 1}", "1'b0", []
    for bit in number:
        size, sign, _ = step(text, size, f"~({bit} ^ {parity})", divisor, width)
        parity = text.bit(f"{parity} ^ {sign}")
        digits.append(text.bit(f"~{parity}"))
        text.most_sums += 1
    return digits, size, parity


def remainder(text: Text, size: str, parity: str, divisor: str, width: int) -> str:
    """The remainder, which is set right where it is below 0."""
    signed = text.bits(f"~{size} ^ {{{width}{{{parity}}}}}", width)
    text.most_sums += 1
    return text.bits(f"{signed} + ({divisor} & {{{width}{{{parity}}}}})", width)


def nonrestoring(number: int, width: int) -> Text:
    """A number by a divisor of `width` bits, with the remainder."""
    text = Text(f"input [{number - 1}:0] a, input [{width - 1}:0] b, output [{number - 1}:0] q, output [{width - 1}:0] r")
    digits, size, parity = quotient(text, [f"a[{at}]" for at in range(number - 1, -1, -1)], "b", width)
    text.drives.append(f"  assign q = {{{', '.join(digits)}}};")
    text.drives.append(f"  assign r = {remainder(text, size, parity, 'b', width)};")
    return text


def size_of(text: Text, name: str, width: int) -> str:
    """The size of a signed word: its complement, or the complement of itself less one."""
    less = text.bits(f"{name} - {width}'d1", width)
    text.most_sums += 1
    return text.bits(f"{name}[{width - 1}] ? ~{less} : {name}", width)


def negated(text: Text, word: str, width: int, sign: str) -> str:
    """A word, or where a sign is 1 its negative, by one chain."""
    text.most_sums += 1
    flipped = text.bits(f"{word} ^ {{{width}{{{sign}}}}}", width)
    return text.bits(f"{flipped} + {{{width - 1}'d0, {sign}}}", width)


def signed_nonrestoring(number: int, width: int) -> Text:
    """Signed numbers by the quotient of their sizes."""
    ports = f"input signed [{number - 1}:0] a, input signed [{width - 1}:0] b, output [{number}:0] q, output [{width - 1}:0] r"
    text = Text(ports)
    a, b = size_of(text, "a", number), size_of(text, "b", width)
    digits, size, parity = quotient(text, [f"{a}[{at}]" for at in range(number - 1, -1, -1)], b, width)
    whole = text.bits(f"{{1'b0, {', '.join(digits)}}}", number + 1)
    sign = text.bit(f"a[{number - 1}] ^ b[{width - 1}]")
    text.drives.append(f"  assign q = {negated(text, whole, number + 1, sign)};")
    left = remainder(text, size, parity, b, width)
    text.drives.append(f"  assign r = {negated(text, left, width, f'a[{number - 1}]')};")
    return text


def restoring(number: int, width: int, zeros: int = 0, is_faithful: bool = False) -> Text:
    """The same where each step subtracts and chooses; its first steps are as wide as the bits so far. Behind the number may be zeros."""
    ends = f"output [{number + zeros - 1}:0] q" + ("" if is_faithful else f", output [{width - 1}:0] r")
    text = Text(f"input [{number - 1}:0] a, input [{width - 1}:0] b, {ends}")
    rest, digits = "", []
    bits = [f"a[{at}]" for at in range(number - 1, -1, -1)] + ["1'b0"] * zeros
    for at, bit in enumerate(bits):
        span = min(at + 1, width + 1)
        whole = text.bits(f"{{{rest}, {bit}}}" if rest else bit, span)
        room = min(span, width)
        left = text.bits(f"{{1'b0, {whole}}} - {{{span + 1 - room}'b0, b[{room - 1}:0]}}", span + 1)
        above = f" & ~|b[{width - 1}:{room}]" if room < width else ""
        digit = text.bit(f"~{left}[{span}]{above}")
        digits.append(digit)
        text.most_sums += 1
        keeps = min(span, width)
        if at < len(bits) - 1 or not is_faithful:
            rest = text.bits(f"{digit} ? {left}[{keeps - 1}:0] : {whole}[{keeps - 1}:0]", keeps)
    text.drives.append(f"  assign q = {{{', '.join(digits)}}};")
    if not is_faithful:
        text.drives.append(f"  assign r = {rest};")
    return text


def faithful(number: int, width: int, zeros: int) -> Text:
    """The quotient alone, of a number with zeros behind it, by nonrestoring steps."""
    text = Text(f"input [{number - 1}:0] a, input [{width - 1}:0] b, output [{number + zeros - 1}:0] q")
    bits = [f"a[{at}]" for at in range(number - 1, -1, -1)] + ["1'b0"] * zeros
    digits, _, _ = quotient(text, bits, "b", width)
    text.drives.append(f"  assign q = {{{', '.join(digits)}}};")
    return text
