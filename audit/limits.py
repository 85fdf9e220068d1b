"""Two models at the limits of a slice, for the word `large` of `targets`."""

PACKAGE = """package p public annex emv2 {{** error behavior m events {events}
states ok: initial state; {states} transitions {transitions} end behavior; **}};
device d annex emv2 {{** use behavior p::m; **}}; end d;
"""


def many_events(count):
    """A state on any of so many events, others that hold always or never, and a count."""
    names = [f"e{number}" for number in range(count)]
    text = PACKAGE.format(
        events=" ".join(f"{name}: error event;" for name in names),
        states="any: state; ever: state; none: state; two: state; half: state;",
        transitions=f"ok -[{' or '.join(names)}]-> any; "
                    f"none -[{' or '.join(names)}]-> none; "
                    f"ok -[0 ormore ({', '.join(names)})]-> ever; "
                    f"any -[e0 and e1]-> two; ok -[{' or '.join(names[1:])}]-> half;")
    return text + "end p;\n", "p::d"


def long_chain(count):
    """A part with a chain of so many states, and a root that looks at three of them."""
    text = PACKAGE.format(
        events="e: error event; f: error event;",
        states=" ".join(f"s{number}: state;" for number in range(count)),
        transitions="ok -[e]-> s0; " + " ".join(
            f"s{number} -[{'f' if number == 9 else 'e'}]-> s{number + 1};"
            for number in range(count - 1)))
    looks = " ".join(f"[x.s{number}]-> {state};" for number, state in
                     ((5, "near"), (count - 2, "far"), (count - 1, "last")))
    return text + (
        "annex emv2 {** error behavior r states ok: initial state; near: state; far: state; "
        "last: state; end behavior; **};\n"
        "system s annex emv2 {** use behavior p::r; **}; end s;\n"
        "system implementation s.i subcomponents x: device d;\n"
        f"annex emv2 {{** composite error behavior states {looks} end composite; **}};\n"
        "end s.i;\nend p;\n"), "p::s.i"


# Of each text whether all answers on the whole model are asked for, or `targets` alone.
TEXTS = [(many_events(1025), True), (many_events(1024), True), (long_chain(32767), False)]
