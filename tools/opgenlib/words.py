"""What an operator computes, in which formats and when, in words: by its specification and its report."""
from .exact import wraps
from .report import Port, Report
from .specification import is_always_exact
from .terms import formula_of, terms_of

# The most terms of a sum of products that a formula shows.
MOST_TERMS = 8


def format_power(exponent: int) -> str:
    """2^exponent, in digits where it is short."""
    return str(1 << exponent) if 0 <= exponent <= 16 else f"2^{exponent}"


def format_text(port: Port) -> str:
    """A port's format, in words."""
    top = format_power(port.width - port.is_signed + port.lsb)
    least = f"-{top}" if port.is_signed else "0"
    bits = f"{port.width} bit{'s' if port.width > 1 else ''}"
    return f"{port.name}: {port.sign}, {bits}, lsb 2^{port.lsb}, from {least} to {top} - {format_power(port.lsb)}"


def constant_text(spec: dict) -> str:
    """The constant of a scale, or of a filter that has one alone."""
    number = spec["taps" if spec["kind"] == "tfir" else "coefficients"][0]
    return f"{number}/{spec['denominator']}" if spec.get("denominator", 1) != 1 else str(number)


def formula(spec: dict) -> str:
    """What is computed, by the specification."""
    chosen = f", {'wrapped' if wraps(spec) else 'saturated'} to {spec['out_width']} bits" if "out_width" in spec else ""
    return value_formula(spec) + chosen


def value_formula(spec: dict) -> str:
    """What is computed, before an output of a chosen width is saturated or wraps."""
    last = len(spec.get("coefficients", spec.get("taps", []))) - 1
    over = f" over {spec['denominator']}" if spec.get("denominator", 1) != 1 else ""
    match spec["kind"]:
        case "scale":
            return f"y = x * {constant_text(spec)}"
        case "fir" | "tfir" if last > 0:
            middle = " + .. +" if last > 1 else " +"
            factors = "coefficients" if spec["kind"] == "fir" else "taps"
            return f"y(t) = c0 x(t){middle} c{last} x(t - {last}), c0 to c{last} the {factors} below{over}"
        case "fir" | "tfir":
            return f"y = x * {constant_text(spec)}"
        case "multiply":
            return "y = a * b"
        case "poly":
            return f"y = c0 + .. + c{last} x^{last}, c0 to c{last} the coefficients below{over}" if last > 1 else f"y = c0 + c1 x, c0 and c1 the coefficients below{over}"
        case "divide":
            rounded = "towards 0" if spec.get("signed", False) else "down"
            return "q = a / b" + (f", rounded {rounded}, and r = a - q b" if spec["exact"] else "") + "; b must not be 0"
        case "constdiv":
            return f"q = x / {spec['divisor']}" + (f", rounded down, and r = x - {spec['divisor']} q" if spec["exact"] else "")
        case "root":
            return "y is the square root of x" + (", rounded down, and r = x - y y" if spec["exact"] else "")
        case "mcm":
            return ", ".join(f"y{at} = {constant} x" for at, constant in enumerate(spec["constants"]))
        case "sop":
            return f"y = {formula_of(terms_of(spec), MOST_TERMS)}"
    return f"the kind {spec['kind']}, by the specification below"


def is_exact(spec: dict, facts: Report) -> bool:
    """Whether the outputs are equal: where that was asked for, and in kinds that are always so."""
    return facts.is_exact or is_always_exact(spec)


def reference(spec: dict) -> str:
    """The value that an output is near."""
    if "out_width" not in spec:
        return "the exact value"
    return "the wrapped value" if wraps(spec) else "the saturated value"


def mode_text(spec: dict, facts: Report) -> str:
    """How near the outputs are."""
    if is_exact(spec, facts):
        return "exact"
    return f"faithful: less than {format_power(facts.outputs[0].lsb)} from {reference(spec)}"


def latency_text(facts: Report, has_enable: bool) -> str:
    cycles = f"{facts.latency} cycle{'' if facts.latency == 1 else 's'}"
    of_ce = ", counted where ce is 1" if has_enable else ""
    when = f"outputs come {cycles} after their inputs{of_ce}" if facts.latency else "outputs come in the cycle of their inputs"
    return f"Latency {facts.latency}: {when}. A new input is taken in every cycle."
