#!/usr/bin/env python3
"""Prints rows without order for the tables of keeping_rows, each with what plain lists answer to it.

What a table keeps is a list of facts here, each look-up goes through all of them, and nothing is taken from the
server's own output. Usage: keeping_walks.py, whose output is the part of crates/keeping_rows/stdout that answers
data/walks.rows.
"""


class Numbers:
    """A linear congruential generator (Knuth's MMIX)."""

    def __init__(self):
        self.state = 1

    def below(self, limit):
        self.state = (self.state * 6364136223846793005 + 1442695040888963407) % 2**64
        return (self.state >> 33) % limit


def show(row, answer="done"):
    print(row, "=", answer)


def window(steps):
    """Each packet is looked for and then comes: it is a copy where it was accepted less than 30 seconds ago."""
    numbers, accepted, now = Numbers(), [], 1000
    show("window new 30")
    for _ in range(steps):
        now += numbers.below(7)
        packet = f"{now} K1ABC>APRS {numbers.below(20)}"
        body = packet.split()[-1]
        young = [moment for text, moment in accepted if text == body and now - moment < 30]
        show(f"window seen {packet}", young[0] if young else "none")
        show(f"window put {packet}", young[0] if young else "new")
        if not young:
            accepted.append((body, now))


def links_of(facts, name, now, age):
    links = {link for link, call, moment in facts if call == name and now - moment <= age}
    return " ".join(str(link) for link in sorted(links)) or "none"


def heard(steps):
    """Links hear stations and are promised positions, which are asked for, some of them at an earlier moment."""
    numbers, facts, promises, now = Numbers(), [], [], 100000
    show("heard new")
    for _ in range(steps):
        now += numbers.below(256)
        link, name = numbers.below(12), f"K1{'ABCDEFGHIJ'[numbers.below(10)]}"
        before, kind = now - numbers.below(256) * 20, numbers.below(16)
        if kind < 5:
            facts.append((link, name, now))
            show(f"heard note {link} {name} {now}")
        elif kind < 9:
            promises.append((link, name, now))
            show(f"heard promise {link} {name} {now}")
        elif kind < 12:
            show(f"heard receivers {name} {before}", links_of(facts, name, before, 10800))
        elif kind < 14:
            show(f"heard courtesy {name} {before}", links_of(promises, name, before, 1800))
            promises = [fact for fact in promises if fact[1] != name]
        elif kind == 14:
            facts = [fact for fact in facts if fact[0] != link]
            promises = [fact for fact in promises if fact[0] != link]
            show(f"heard forget {link}")
        else:
            facts = [fact for fact in facts if now - fact[2] <= 10800]
            promises = [fact for fact in promises if now - fact[2] <= 1800]
            show(f"heard expire {now}")


def last(facts, name, now):
    young = [value for call, value, moment in facts if call == name and now - moment < 172800]
    return young[-1] if young else None


def told(numbers, name, places, gates, now):
    """The line of a packet, perhaps with a gate and perhaps with a position."""
    degrees, gate = 10 + numbers.below(70), f"N{numbers.below(8)}CALL"
    line = f"{name}>APRS"
    if numbers.below(3):
        gates.append((gate, "yes", now))
        line += f",qAR,{gate}"
    if numbers.below(4) == 0:
        return line + ":>x"
    places.append((name, degrees * 1000000 + 500000, now))
    return line + f":!{degrees}30.00N/07201.75W-"


def station(steps):
    """Packets are noted, and after each a call is asked for at its moment, and another at an earlier one."""
    numbers, places, gates, now = Numbers(), [], [], 100000
    show("station new")
    for _ in range(steps):
        now += numbers.below(60000)
        name = f"N{numbers.below(8)}CALL"
        if numbers.below(5):
            show(f"station note {now} {told(numbers, name, places, gates, now)}")
        else:
            places = [fact for fact in places if now - fact[2] < 172800]
            gates = [fact for fact in gates if now - fact[2] < 172800]
            show(f"station expire {now}")
        for moment in [now, now - numbers.below(100000)]:
            name = f"N{numbers.below(8)}CALL"
            show(f"station latitude {name} {moment}", last(places, name, moment) or "none")
            show(f"station gate {name} {moment}", last(gates, name, moment) or "no")


def main():
    print("# A thousand rows of a window, without order, as plain lists answer them (tools/keeping_walks.py)")
    window(500)
    print("\n# A thousand of heard stations and promises")
    heard(1000)
    print("\n# A thousand of last positions and gates")
    station(200)


main()
