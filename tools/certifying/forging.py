"""Changes certificates: small changes of the text, and changes that a forger would make, who knows what is checked.

Some of the changed certificates are right, such as those that name variables anew. So each that passes is to be held
against the scheme or the refusal itself.
"""
from __future__ import annotations

import random
import re

from certifying.reading import Certificate, Reader
from front import Report, Source, typed
from prove import prove
from show import unit_text
from units import BASE, VAR, Unit, mul, put_unit

NUMBER = re.compile(r"-?[0-9]+")
UNIT = re.compile(r"(?<=: ).+")
PARAMETERS = re.compile(r"<\[<Measure>\] '\w+(, \[<Measure>\] '\w+)*>")


# ---- changes of the text


def one_number(rng: random.Random, text: str) -> str:
    """A number becomes one that is near, or another."""
    found = list(NUMBER.finditer(text))
    if not found:
        return text
    place = rng.choice(found)
    number = int(place[0])
    others = [number + 1, number - 1, -number, 0, 1, number * 2, rng.randint(-9, 9), 2**31, 2**63]
    return text[:place.start()] + str(rng.choice(others)) + text[place.end():]


def lines(rng: random.Random, text: str) -> str:
    """A line is dropped, doubled, moved, or exchanged with another."""
    parts = text.splitlines(keepends=True)
    one, other = rng.randrange(len(parts)), rng.randrange(len(parts))
    change = rng.randrange(4)
    if change == 0:
        del parts[one]
    elif change == 1:
        parts.insert(other, parts[one])
    elif change == 2:
        parts.insert(other, parts.pop(one))
    else:
        parts[one], parts[other] = parts[other], parts[one]
    return "".join(parts)


def character(rng: random.Random, text: str) -> str:
    """A character is dropped, doubled, or becomes another of the text."""
    place = rng.randrange(len(text))
    other = rng.choice(["", text[place] * 2, rng.choice(text), rng.choice(" \n\r/^'*$0-1")])
    return text[:place] + other + text[place + 1:]


def word(rng: random.Random, text: str) -> str:
    """A word becomes another of the text, or another kind of certificate."""
    kinds = [" yes ", " no ", " not general "]
    known = [kind for kind in kinds if kind in text]
    if known and rng.random() < 0.4:
        return text.replace(rng.choice(known), rng.choice(kinds), 1)
    found = list(re.finditer(r"[^\s]+", text))
    place, other = rng.choice(found), rng.choice(found)
    return text[:place.start()] + other[0] + text[place.end():]


def unit(rng: random.Random, text: str) -> str:
    """The unit or the product of a line becomes that of another line."""
    found = list(UNIT.finditer(text))
    if not found:
        return text
    place, other = rng.choice(found), rng.choice(found)
    return text[:place.start()] + other[0] + text[place.end():]


# ---- changes of what it says


def text_of(certificate: Certificate, bases: list[str]) -> str:
    """A certificate as it is printed."""
    product = lambda parts: " ".join(f"{row}*{power}" for row, power in sorted(parts.items()) if power)
    head = "{} {} {} {}\n".format(certificate.name, certificate.kind, *certificate.numbers)
    if certificate.kind != "yes":
        return head + f"  rows: {product(certificate.product)}\n"
    names = bases + [f"${number}" for number in range(9)]
    shown = {word: "".join(f"  {word} {number}: {unit_text(each, names)}\n" for number, each in enumerate(units))
             for word, units in certificate.units.items()}
    rows = "".join(f"  rows {slot}: {product(parts)}\n" for slot, parts in sorted(certificate.rows.items()))
    return head + shown["slot"] + shown["back"] + rows + shown["rigid"]


class Forger:
    """Changes the certificate of one function."""

    def __init__(self, rng: random.Random, bases: list[str]) -> None:
        self.rng, self.bases = rng, bases

    def changed(self, certificate: Certificate) -> None:
        """One change of what the certificate says."""
        own = [self.put, self.turned, self.more, self.scaled, self.to_refusal]
        other = [self.later, self.kind, self.by_modulus, self.product]
        self.rng.choice(own if certificate.kind == "yes" else other)(certificate)

    def some_unit(self, count: int) -> Unit:
        """A small unit over base units and variables."""
        atoms = [(BASE, number) for number in range(len(self.bases))] + [(VAR, number) for number in range(count)]
        chosen = self.rng.sample(atoms, min(len(atoms), self.rng.choice([0, 1, 1, 2])))
        return {atom: self.rng.choice([1, 1, -1, 2, -2, 3]) for atom in chosen}

    def put(self, certificate: Certificate) -> None:
        """A unit is put for a variable: less than the scheme, or the same with other names."""
        count = certificate.numbers[0]
        key, by = (VAR, self.rng.randrange(count + 1)), self.some_unit(count)
        certificate.units["slot"] = [put_unit(each, lambda atom: by if atom == key else None)
                                     for each in certificate.units["slot"]]

    def turned(self, certificate: Certificate) -> None:
        """A variable becomes itself or its inverse times others, and the ways back follow: the same scheme."""
        count = certificate.numbers[0]
        if not count:
            return
        one, sign = self.rng.randrange(count), self.rng.choice([1, -1])
        other = self.rng.randrange(count)
        by = {(VAR, one): sign} if other == one else {(VAR, one): sign, (VAR, other): self.rng.choice([1, -1, 2])}
        back = certificate.units["back"]
        rest = put_unit({atom: power for atom, power in by.items() if atom != (VAR, one)},
                        lambda atom: back[atom[1]] if atom[1] < len(back) else None)
        certificate.units["slot"] = [put_unit(each, lambda atom: by if atom == (VAR, one) else None)
                                     for each in certificate.units["slot"]]
        if one < len(back):
            back[one] = mul({}, mul(back[one], rest, -1), sign)

    def more(self, certificate: Certificate) -> None:
        """One variable more, at one slot or at each with the same unit: more than the scheme."""
        count, divisor = certificate.numbers
        slots, new = certificate.units["slot"], {(VAR, count): self.rng.choice([1, -1, 2])}
        if not slots:
            return
        place = self.rng.randrange(len(slots))
        old, every = slots[place], self.rng.random() < 0.5
        certificate.units["slot"] = [mul(each, new) if number == place or every and each == old else each
                                     for number, each in enumerate(slots)]
        certificate.units["back"].append(self.some_unit(len(slots)))
        certificate.numbers = (count + 1, divisor)
        certificate.rows.pop(place, None)

    def scaled(self, certificate: Certificate) -> None:
        """The divisor and all rows to a power: the same scheme. Or only one of them."""
        times, which = self.rng.choice([2, 3, -1, 0]), self.rng.randrange(3)
        if which != 1:
            certificate.numbers = (certificate.numbers[0], certificate.numbers[1] * times)
        if which != 2:
            certificate.rows = {slot: {row: power * times for row, power in parts.items()}
                                for slot, parts in certificate.rows.items()}

    def to_refusal(self, certificate: Certificate) -> None:
        """A refusal in the place of a scheme."""
        row = self.rng.randrange(4)
        certificate.kind = self.rng.choice(["no", "not general"])
        certificate.numbers, certificate.product = (row + 1, self.rng.choice([2, 2, 3, 5])), {row: 1}

    def later(self, certificate: Certificate) -> None:
        """Another equation is named, and takes part by a power that is a multiple of the modulus."""
        last, modulus = certificate.numbers
        new = max(1, last + self.rng.choice([1, 1, 2, -1]))
        certificate.numbers = (new, modulus)
        if self.rng.random() < 0.7:
            certificate.product[new - 1] = certificate.product.get(new - 1, 0) + modulus * self.rng.choice([1, -1])

    def kind(self, certificate: Certificate) -> None:
        """The other kind of refusal."""
        certificate.kind = "no" if certificate.kind == "not general" else "not general"

    def by_modulus(self, certificate: Certificate) -> None:
        """The modulus or all powers by a number."""
        last, modulus = certificate.numbers
        times = self.rng.choice([2, 3, -1, 5])
        if self.rng.random() < 0.7:
            certificate.numbers = (last, modulus * times)
        if self.rng.random() < 0.7:
            certificate.product = {row: power * times for row, power in certificate.product.items()}

    def product(self, certificate: Certificate) -> None:
        """One row of the product to another power."""
        row = self.rng.randrange(certificate.numbers[0])
        certificate.product[row] = certificate.product.get(row, 0) + self.rng.choice([1, -1, certificate.numbers[1]])


def forged(rng: random.Random, certificates: list[Certificate], bases: list[str]) -> str:
    """The text of certificates, of which one or two were changed, the last ones left out or an earlier one repeated."""
    forger = Forger(rng, bases)
    for _ in range(rng.choice([1, 1, 2])):
        forger.changed(rng.choice(certificates))
    texts = [text_of(certificate, bases) for certificate in certificates]
    if rng.random() < 0.1:
        texts = texts[:rng.randrange(len(texts))]
    return "".join(texts)


def mixed(rng: random.Random, text: str, other: str) -> str:
    """The certificate of a function becomes that of the same function of another program, or all of them."""
    if rng.random() < 0.3:
        return other
    blocks = [re.split(r"(?m)^(?! )", each)[1:] for each in (text, other)]
    names = {block.split(" ")[0]: block for block in blocks[1]}
    known = [number for number, block in enumerate(blocks[0]) if block.split(" ")[0] in names]
    if known:
        number = rng.choice(known)
        blocks[0][number] = names[blocks[0][number].split(" ")[0]]
    return "".join(blocks[0])


def rigid_units(rng: random.Random, certificate: Certificate, bases: int, parameters: int) -> list[Unit]:
    """Unit parameters in the place of the first variables, and perhaps each at its own slot."""
    key_unit = lambda key: {(BASE, bases + key[1]): 1} if key[1] < parameters else {}
    rigid = [put_unit(unit, lambda key: key_unit(key) if key[0] == VAR else None) for unit in certificate.units["slot"]]
    if rng.random() < 0.5:
        rigid[:parameters] = [{(BASE, bases + number): 1} for number in range(parameters)]
    return rigid


def as_if_loose(rng: random.Random, source: Source) -> str:
    """The certificates of the program without its unit parameters, rigid units put after those that need them."""
    lines = source.text.split("\n")
    text = "\n".join(PARAMETERS.sub("", line, 1) if line.startswith("let") else line for line in lines)
    try:
        certificates = Reader(source.program, prove(typed(text.encode(), True))).certificates()
    except Report:
        return ""
    bases = source.program.bases
    for certificate, function in zip(certificates, source.program.functions):
        if certificate.kind == "yes" and function.units:
            certificate.units["rigid"] = rigid_units(rng, certificate, len(bases), function.units)
    return "".join(text_of(certificate, bases) for certificate in certificates)


TEXT_CHANGES = [one_number, one_number, lines, character, word, unit]
