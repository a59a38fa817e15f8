"""What comes nearest to an operator that is not there."""
from collections.abc import Iterator

# What comes nearest to each word for what is computed that is no kind.
INSTEAD: list[tuple[str, str]] = [
    ("cordic", "a sine or an angle is a poly, a magnitude a root of a sop of two squares"),
    ("sin sine cos cosine tan atan atan2 arctan exp log ln log2 log10 sigmoid tanh function", "a function is a poly, a polynomial near it"),
    ("sqrt square_root squareroot isqrt", "a square root is a root"),
    ("div divider quotient mod modulo rem remainder", "a quotient is a divide, by a constant of 2 to 32 a constdiv"),
    ("reciprocal inverse inv rsqrt", "a reciprocal is a divide of a constant numerator, or a poly"),
    ("mul mult multiplier product times", "a product is a multiply"),
    ("mac dot dotproduct dot_product sum add adder sub subtract subtractor accumulate cmul complex butterfly",
     "products and constants times inputs are added by a sop"),
    ("square norm abs2 power magnitude", "sums of squares are a sop, and a root behind it is a magnitude"),
    ("gain constant const kcm", "a number times one constant is a scale, times several an mcm"),
    ("fft dft dct transform", "one number times several constants is an mcm, a sum of several inputs a sop"),
    ("filter lowpass highpass bandpass halfband hilbert", "a filter is a fir or a tfir"),
    ("iir biquad integrator accumulator cic", "no operator feeds its output back; a sum of products is a sop, a filter without feedback a fir"),
]  # fmt: skip
# The most divisions by constants that are named in place of one.
MOST_DIVISIONS = 4


def instead_of_kind(kind: str) -> str:
    """What comes nearest to a word that is no kind, empty where that is not known."""
    return next((said for words, said in INSTEAD if kind.lower() in words.split()), "")


def products(number: int, count: int, least: int, most: int) -> Iterator[tuple[int, ...]]:
    """The ways to write a number as a product of so many factors between two bounds, in increasing order."""
    if count == 1:
        if least <= number <= most:
            yield (number,)
        return
    for factor in range(least, most + 1):
        if number % factor == 0:
            for rest in products(number // factor, count - 1, factor, most):
                yield (factor, *rest)


def instead_of_divisor(divisor: int, most: int) -> str:
    """The divisions by smaller constants that make one by a larger constant, or what divides by it otherwise."""
    if divisor <= most:
        return ""
    for count in range(2, MOST_DIVISIONS + 1):
        if ways := list(products(divisor, count, 2, most)):
            first, *others = min(ways, key=lambda way: way[-1] - way[0])
            return f"divide by {first}, {', '.join(f'then q by {factor}' for factor in others)}: the last q is that of {divisor}"
    return f"take kind divide with {divisor} as b, or scale with coefficients = [1] and denominator = {divisor}, which is faithful"
