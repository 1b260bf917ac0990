#!/usr/bin/env python3
"""Writes the tickets that the program inspect_patches is tried on, and what it must print of them (crates/inspect_patches: args, data/, stdout).

Nothing of the library's way is used here: a Bernstein coefficient is computed as the polar form of the polynomial at copies of the
two ends of each axis, over fractions, on the whole box and on its halves.
"""
import random
from fractions import Fraction
from itertools import product
from math import comb, prod
from pathlib import Path

LIMIT = 2**62 - 1
L = [1, 1, 2, 3, 12, 10, 60, 105, 280]
SIGNS = {1: ">", 2: ">=", 3: "<", 4: "<="}


def elementary(e, xs):
    """The sum of all products of e of the numbers xs."""
    row = [Fraction(1)] + [Fraction(0)] * e
    for x in xs:
        for m in range(e, 0, -1):
            row[m] += row[m - 1] * x
    return row[e]


def coefficient(power, degree, low, high, k):
    return elementary(power, [low] * (degree - k) + [high] * k) / comb(degree, power)


def patch(axes, terms, relation, ends, factor):
    """The pairs of the patch between these ends, times a factor."""
    sign = -1 if relation >= 3 else 1
    out = []
    for index in product(*(range(n + 1) for n, *_ in axes)):
        pair = [Fraction(0), Fraction(0)]
        for exponents, value, drift in terms:
            c = prod((coefficient(exponents[j], axes[j][0], *ends[j], k) for j, k in enumerate(index)), start=Fraction(1))
            pair[0] += c * value
            pair[1] += c * drift
        pair = [sign * factor * x for x in pair]
        assert all(x.denominator == 1 for x in pair)
        out.append((int(pair[0]), int(pair[1])))
    return out


def number(pair):
    value, drift = pair
    return str(value) if drift == 0 else f"{value} (drift {drift})"


def numbers(pairs):
    return ", ".join(map(number, pairs))


def encoded(axes, terms, relation, depth):
    four = lambda z: z.to_bytes(4, "big", signed=True)
    records = [bytes([1, j, n, 1 * lo + 2 * uo]) + four(a) + four(b) + bytes(4) for j, (n, a, b, lo, uo) in enumerate(axes)]
    records += [bytes([2, *e, 0, 0, 0]) + four(v) + four(d) for e, v, d in terms]
    return b"".join(records + [bytes([3, relation, depth]) + bytes(13)])


def power(j, e):
    return f"x{j}" if e == 1 else f"x{j}^{e}"


def summand(leads, exponents, value, drift):
    powers = "*".join(power(j, e) for j, e in enumerate(exponents) if e)
    size = abs(value)
    body = powers if powers and size == 1 else f"{size}*{powers}" if powers else str(size)
    sign = ("-" if value < 0 else "") if leads else (" - " if value < 0 else " + ")
    return sign + body + (f" (drift {drift})" if drift else "")


def counted(n, one, many):
    return f"{n} {one if n == 1 else many}"


def page(axes, terms, relation, depth):
    lines = [f"axis {j}: x{j} in {'(' if lo else '['}{a}, {b}{')' if uo else ']'}, degree {n}" for j, (n, a, b, lo, uo) in enumerate(axes)]
    p = "".join(summand(i == 0, *t) for i, t in enumerate(terms)) or "0"
    lines += [f"p = {p}", f"question: p {SIGNS[relation]} 0 at every point of the box", f"depth: {depth}"]
    count = len(axes) + len(terms) + 1
    return lines + [f"records: {count} ({counted(len(axes), 'axis', 'axes')}, {counted(len(terms), 'term', 'terms')}, 1 question)"]


def shown(axes, terms, relation, depth, halvings):
    lines = page(axes, terms, relation, depth)
    count = prod(n + 1 for n, *_ in axes)
    scale = prod(L[n] for n, *_ in axes)
    reach = [abs(a) + b - a for _, a, b, *_ in axes]
    powers = [prod(r**e for r, e in zip(reach, exponents)) for exponents, *_ in terms]
    sizes = [scale * sum(abs(t[part]) * r for t, r in zip(terms, powers)) for part in (1, 2)]
    if count > 128:
        return lines + ["ticket 9 sizing 0 0"]
    if max(sizes) > LIMIT:
        return lines + ["ticket 10 sizing 0 0"]
    whole = [(Fraction(a), Fraction(b)) for _, a, b, *_ in axes]
    first = patch(axes, terms, relation, whole, scale)
    lines += [f"numbers in a patch: {count}, scaled by {scale}", f"sizes: values {sizes[0]}, drifts {sizes[1]}", f"first patch: {numbers(first)}"]
    for j in halvings:
        if j >= len(axes) or any(abs(x) * 2 ** axes[j][0] > LIMIT for pair in first for x in pair):
            lines.append(f"no halves along axis {j}")
            continue
        low, high = whole[j]
        middle = (low + high) / 2
        for name, half in (("lower", (low, middle)), ("upper", (middle, high))):
            ends = whole[:j] + [half] + whole[j + 1 :]
            lines.append(f"{name} half along axis {j}: {numbers(patch(axes, terms, relation, ends, scale * 2 ** axes[j][0]))}")
    return lines


def e(*exponents):
    return tuple(exponents) + (0,) * (4 - len(exponents))


def worked():
    """Name, axes (degree, lower, upper, open ends), terms (exponents, value, drift), relation, depth, axes to halve along."""
    closed = lambda n, a, b: (n, a, b, False, False)
    yield "touching", [closed(2, 0, 1)], [(e(2), 4, 0), (e(1), -4, 0), (e(0), 1, 0)], 1, 1, [0]
    yield "crossing", [closed(2, -2, 3)], [(e(2), 1, 0), (e(0), -4, 0)], 2, 1, [0, 1]
    yield "opposite", [closed(2, -2, 3)], [(e(2), 1, 5), (e(0), -4, 1)], 3, 1, [0]
    yield "at_most", [closed(1, -3, 4)], [(e(1), 7, -2)], 4, 0, [0]
    yield "nothing", [(1, 0, 1, True, True)], [], 1, 0, [0]
    yield "product", [closed(1, 0, 1), closed(1, 0, 1)], [(e(1, 1), 1, 0)], 2, 0, [0, 1, 2]
    yield "largest", [closed(2, -30000, 30000)], [(e(2), 284671976, 0)], 1, 3, [0]
    yield "too_large", [closed(2, -30000, 30000)], [(e(2), 284671977, 0)], 1, 3, [0]
    yield "zero_and_huge", [closed(8, -30000, 30000)], [(e(8), 0, 0), (e(0), 1, 0)], 1, 3, [0]
    # the largest number is 280 * 2^8 times the sum of the coefficients: just below 2^54 in size, and just above
    last = (2**54 - 1) // (280 * 2**8) - 117 * 2147483647
    yield "may_grow", [closed(8, 0, 2)], [(e(8), 2147483647, 0)] * 117 + [(e(8), last, 0)], 1, 24, [0]
    yield "may_not_grow", [closed(8, 0, 2)], [(e(8), 2147483647, 0)] * 117 + [(e(8), last + 1, 0)], 1, 24, [0]
    yield "four_axes", [closed(1, j, j + 2) for j in range(4)], [(e(1, 1, 1, 1), 3, -1), (e(0, 1), -5, 0)], 1, 4, [0, 1, 2, 3, 4]
    yield "fullest", [closed(7, -1, 1), closed(3, 0, 2), closed(3, -2, 1)], [(e(7, 3, 3), 2, 0), (e(1, 0, 2), -9, 4)], 4, 9, [1]
    yield "overfull", [closed(8, 0, 1), closed(4, 0, 1), closed(2, 0, 1)], [(e(1), 1, 0)], 1, 2, [0]


def random_tickets(count, seed):
    r = random.Random(seed)
    while count:
        axes = []
        for _ in range(r.randint(1, 4)):
            a = r.choice([0, -1, r.randint(-50, 50), r.randint(-2000, 2000)])
            axes.append((r.randint(1, 8 if not axes else 3), a, a + r.choice([1, 2, r.randint(1, 300)]), r.random() < 0.3, r.random() < 0.3))
        if prod(n + 1 for n, *_ in axes) > 64:
            continue
        terms = []
        for _ in range(r.randint(1, 5)):
            exponents = e(*(r.randint(0, n) for n, *_ in axes))
            terms.append((exponents, r.randint(-(10 ** r.randint(1, 9)), 10 ** r.randint(1, 9)), r.choice([0, 0, r.randint(-999, 999)])))
        count -= 1
        yield f"random_{count}", axes, terms, r.randint(1, 4), r.randint(0, 24), [r.randrange(len(axes))]


def main():
    crate = Path(__file__).resolve().parent.parent / "crates" / "inspect_patches"
    words, lines = [], []
    for name, *ticket, halvings in [*worked(), *random_tickets(24, 7)]:
        (crate / "data" / f"{name}.bin").write_bytes(encoded(*ticket))
        words += [f"{name}.bin", *map(str, halvings)]
        lines += shown(*ticket, halvings)
    words += ["missing.bin", "0"]
    lines += ["ticket 1 reader 0 0"]
    (crate / "args").write_text("\n".join(words) + "\n")
    (crate / "stdout").write_text("\n".join(lines) + "\n")


if __name__ == "__main__":
    main()
