"""ACT-R's equations for what an image holds as plain numbers: activations, and the latencies that follow from them.

Nothing here is part of a run: an image has its numbers, and these functions say what they should be. The numbers in brackets
are those of the equations in D. Gall's thesis of 2013, sections 2.2.1 and 4.9.1.
"""
import math

LARGEST = 0xFFFF


def latency(activation, factor=1.0, exponent=1.0):
    """The ms that a retrieval takes, F e^(-f A) (2.5): `factor` is F in seconds, `exponent` f, which is 1 in the thesis.

    >>> latency(0), latency(2), latency(-1, factor=0.35), latency(1.5, factor=0.5, exponent=0.8)
    (1000, 135, 951, 151)
    """
    power = -_real(exponent, "an exponent") * _real(activation, "an activation")
    # e to a larger power is too large a latency whatever the factor is, if it is not 0
    ms = 1000 * _real(factor, "a latency factor", 0) * math.exp(min(power, 700))
    if ms > LARGEST + 0.5:
        raise ValueError(f"a latency of {ms:.6g} ms is over {LARGEST:,} ms, the largest that an image holds")
    return round(ms)


def failure_latency(threshold, factor=1.0, exponent=1.0):
    """The ms until a request fails: those of a fact whose activation is the threshold (section 4.9.1).

    >>> failure_latency(-0.5, factor=latency_factor(-0.5))
    350
    """
    return latency(threshold, factor, exponent)


def latency_factor(threshold):
    """The usual latency factor for a threshold, in seconds, 0.35 e^tau (2.6).

    >>> round(latency_factor(-0.5), 4)
    0.2123
    """
    return 0.35 * math.exp(_real(threshold, "a threshold"))


def base_level(ages, decay=0.5):
    """The base-level activation of a fact that was met so many seconds ago, each time: ln of the sum of t^-d (2.2).

    >>> round(base_level([1.0, 4.0]), 4)
    0.4055
    """
    ages = [_real(age, "an age", 0) for age in ages]
    if not ages or 0 in ages:
        raise ValueError("a base level needs one time at least, and each before now")
    return math.log(sum(age ** -_real(decay, "a decay") for age in ages))


def strength(fan, most=2.0):
    """The strength of association from a source, S - ln(fan) (2.4): `fan` counts the facts that hold it, and itself.

    >>> round(strength(3), 4)
    0.9014
    """
    fan = _real(fan, "a fan", 0)
    if fan < 1:
        raise ValueError(f"a fan is 1 at least, since a source is associated with itself, not {fan:g}")
    return _real(most, "a largest strength") - math.log(fan)


def spread(base, strengths, sources=None):
    """The activation of a fact, its base level and what spreads to it (2.3): each source has the weight 1 / n.

    `strengths` are those of the sources that the fact holds; `sources` is n, if there are more than these.

    >>> round(spread(0.0, [strength(2), strength(3)]), 4)
    1.1041
    """
    strengths = [_real(one, "a strength") for one in strengths]
    count = len(strengths) if sources is None else sources
    if count < len(strengths):
        raise ValueError(f"{count} sources are fewer than the {len(strengths)} strengths that are given")
    return _real(base, "a base level") + (sum(strengths) / count if count else 0.0)


def level(activation):
    """An activation as an image has it, where only the order counts: thousandths above -32.768, 0 to 65,535.

    >>> level(-0.5) < level(0) < level(0.001), level(0)
    (True, 32768)
    """
    thousandths = round(1000 * _real(activation, "an activation")) + 32_768
    if not 0 <= thousandths <= LARGEST:
        raise ValueError(f"an activation is from -32.768 to 32.767, not {activation:g}")
    return thousandths


def _real(number, what, least=-math.inf):
    """The number, if it is a finite one and not below the least."""
    try:
        real = float(number)
    except (TypeError, ValueError, OverflowError):
        raise TypeError(f"{what} is a number, not {type(number).__name__}") from None
    if not math.isfinite(real) or real < least:
        raise ValueError(f"{what} is a finite number{' of 0 or more' if least == 0 else ''}, not {real:g}")
    return real
