"""What the functions of money, si, mechanics, electricity and chemistry compute, written apart from them in Python."""
from fractions import Fraction
from typing import Any

from model import (FARADAY, FARADAY_10, GAS, GAS_10, GRAVITY, PI, Function, ceil_to, counted, nth, round_away_to,
                   round_to, sqrt_to)
from quantities import Quantity, quantity, read

Table = list[dict[str, Quantity]]


def shares(coin: Quantity, n: Quantity, amount: Quantity) -> list[Quantity]:
    """Whole coins, dealt out: each takes what is left, divided by those who are left, rounded up."""
    if n.value.denominator != 1:
        raise ZeroDivisionError
    left, found = amount, []
    for people in range(int(n.value), 0, -1):
        found.append(ceil_to(coin, left / people))
        left = left - found[-1]
    return found


def compounded(coin: Quantity, rate: Quantity, n: Quantity, principal: Quantity) -> Quantity:
    """A principal with interest, period by period."""
    for _ in range(counted(n)):
        principal = principal + round_to(coin, principal * rate)
    return principal


def annuity(coin: Quantity, rate: Quantity, n: Quantity, loan: Quantity) -> Quantity:
    """The payment by the closed formula, without any rounding before the last."""
    periods = counted(n)
    growth = (1 + rate.value) ** periods
    factor = periods if rate.value == 0 else (1 - 1 / growth) / rate.value
    return round_to(coin, loan / quantity(factor))


def amortisation(coin: Quantity, rate: Quantity, payment: Quantity, n: Quantity, loan: Quantity) -> Table:
    """The table of a loan."""
    table: Table = []
    for period in range(1, counted(n) + 1):
        if loan.value == 0:
            break
        interest = round_to(coin, loan * rate)
        repaid = payment - interest
        if period == counted(n) or loan < repaid:
            repaid = loan
        loan = loan - repaid
        table.append({"period": quantity(period), "interest_part": interest, "repaid_part": repaid, "balance": loan})
    return table


def instalment(period: Quantity, table: Table) -> dict[str, Quantity]:
    """A row of a table by its period."""
    return nth(quantity(0), [row for row in table if row["period"].value == period.value])


MONEY: dict[str, Function] = {
    "in_coins": round_to,
    "in_coins_away": round_away_to,
    "vat": lambda coin, rate, net: round_away_to(coin, net * rate),
    "with_vat": lambda coin, rate, net: net + round_away_to(coin, net * rate),
    "without_vat": lambda coin, rate, gross: round_away_to(coin, gross / (1 + rate)),
    "discounted": lambda coin, rate, amount: round_away_to(coin, amount - amount * rate),
    "exchanged": lambda coin, rate, amount: round_to(coin, amount * rate),
    "shares": shares,
    "simple_interest": lambda rate, time, principal: principal * rate * time,
    "compounded": compounded,
    "annuity": annuity,
    "amortisation": amortisation,
    "instalment": instalment,
    "total_interest": lambda table: sum((row["interest_part"] for row in table), Quantity(Fraction(0), None)),
}

# How many of the second unit one of the first is, by definition.
FACTORS = {
    ("min", "s"): "60", ("h", "s"): "3600", ("d", "s"): "86400", ("km", "m"): "1000", ("inch", "m"): "0.0254",
    ("ft", "m"): "0.3048", ("yd", "m"): "0.9144", ("mi", "m"): "1609.344", ("g", "kg"): "1/1000", ("t", "kg"): "1000",
    ("lb", "kg"): "0.45359237", ("L", "m^3"): "1/1000", ("kWh", "J"): "3600000", ("cal", "J"): "4.184",
    ("bar", "Pa"): "100000", ("atm", "Pa"): "101325", ("mmHg", "Pa"): "133.322387415", ("arcmin", "deg"): "1/60",
}
INCH, POUND = Fraction("0.0254"), Fraction("0.45359237")
COUNTED = {
    ("oz", "kg"): POUND / 16, ("gal_us", "m^3"): 231 * INCH**3, ("gal_imp", "m^3"): Fraction("4.54609") / 1000,
    ("km/h", "m/s"): Fraction(1000, 3600), ("kn", "m/s"): Fraction(1852, 3600), ("hp", "W"): 75 * GRAVITY.value,
    ("deg", "rad"): PI / 180,
}


def conversions() -> dict[str, Function]:
    """Both conversions for each two units above."""
    found: dict[str, Function] = {}
    for (first, second), factor in {**FACTORS, **COUNTED}.items():
        ratio = read(f"1<{second}>") * Fraction(factor) / read(f"1<{first}>")
        there, back = (name.replace("^3", "3").replace("/", "_per_") for name in (first, second))
        found[f"{there}_to_{back}"] = lambda x, ratio=ratio: x * ratio
        found[f"{back}_to_{there}"] = lambda x, ratio=ratio: x / ratio
    return found


def value(text: str) -> Function:
    """A constant."""
    return lambda: read(text)


ONE = {name: read(f"1<{name}>") for name in ("K", "Celsius", "Fahrenheit", "degF")}
ICE = Fraction("273.15")
SI: dict[str, Function] = {
    **conversions(),
    "Celsius_to_K": lambda x: (x / ONE["Celsius"] + ICE) * ONE["K"],
    "K_to_Celsius": lambda x: (x / ONE["K"] - ICE) * ONE["Celsius"],
    "Celsius_to_Fahrenheit": lambda x: (x / ONE["Celsius"] * Fraction(9, 5) + 32) * ONE["Fahrenheit"],
    "Fahrenheit_to_Celsius": lambda x: (x / ONE["Fahrenheit"] - 32) * Fraction(5, 9) * ONE["Celsius"],
    "Celsius_difference": lambda x, y: (x - y) / ONE["Celsius"] * ONE["K"],
    "Celsius_plus": lambda x, change: x + change / ONE["K"] * ONE["Celsius"],
    "degF_to_degC": lambda x: x / ONE["degF"] * Fraction(5, 9) * ONE["K"],
    "degC_to_degF": lambda x: x / ONE["K"] * Fraction(9, 5) * ONE["degF"],
    "speed_of_light": value("299792458<m/s>"),
    "standard_gravity": lambda: GRAVITY,
    "caesium_frequency": value("9192631770<Hz>"),
    "luminous_efficacy": value("683<lm s^3/kg m^2>"),
    "gas_constant": lambda: GAS,
    "faraday_constant": lambda: FARADAY,
    "standard_atmosphere": value("101325<Pa>"),
    **{name: lambda power=power: quantity(Fraction(10) ** power) for name, power in {
        "deca": 1, "hecto": 2, "kilo": 3, "mega": 6, "giga": 9, "tera": 12, "peta": 15, "exa": 18,
        "deci": -1, "centi": -2, "milli": -3, "micro": -6, "nano": -9, "pico": -12, "femto": -15, "atto": -18,
    }.items()},
}

HALF = Fraction(1, 2)
MECHANICS: dict[str, Function] = {
    "kinetic_energy": lambda mass, speed: HALF * mass * speed * speed,
    "potential_energy": lambda mass, height: GRAVITY * height * mass,
    "weight": lambda mass: GRAVITY * mass,
    "work": lambda force, path: path * force,
    "power_of_force": lambda force, speed: speed * force,
    "momentum": lambda mass, speed: speed * mass,
    "place_after": lambda start, speed, acceleration, time: start + time * (speed + HALF * acceleration * time),
    "speed_after": lambda speed, acceleration, time: time * acceleration + speed,
    "fall_time_to": lambda step, height: sqrt_to(step, height * 2 / GRAVITY),
    "fall_speed_to": lambda step, height: sqrt_to(step, height * 2 * GRAVITY),
    "centripetal_force": lambda mass, speed, radius: speed**2 / radius * mass,
    "speed_together": lambda m1, v1, m2, v2: (m1 * v1 + m2 * v2) / (m2 + m1),
    "spring_force": lambda stiffness, stretch: stretch * -1 * stiffness,
    "spring_energy": lambda stiffness, stretch: HALF * stiffness * stretch * stretch,
    "spring_period_to": lambda step, mass, stiffness: sqrt_to(step, mass / stiffness * (2 * PI) ** 2),
    "drag_force": lambda density, coefficient, area, speed:
        (-HALF if speed.value > 0 else HALF) * density * area * coefficient * speed**2,
    "depth_pressure": lambda density, depth: GRAVITY * depth * density,
    "rectangle_moment": lambda width, height: Fraction(1, 12) * width * height**3,
    "beam_deflection": lambda force, span, modulus, moment: force * span**3 / (48 * modulus * moment),
    "cantilever_deflection": lambda force, length, modulus, moment: force * length**3 / (3 * modulus * moment),
    "rod_stretch": lambda force, length, modulus, area: force / area / modulus * length,
    "reynolds_number": lambda density, speed, width, viscosity: speed * width / (viscosity / density),
}


def in_parallel(parts: list[Quantity]) -> Quantity:
    """Parts side by side: product over sum, two at a time."""
    found: Any = None
    for part in parts:
        if part.value == 0:
            raise ZeroDivisionError
        found = part if found is None else found * part / (found + part)
    return nth(quantity(0), [found] if parts else [])


ELECTRICITY: dict[str, Function] = {
    "voltage_of": lambda current, resistance: resistance * current,
    "current_of": lambda voltage, resistance: voltage / resistance,
    "resistance_of": lambda voltage, current: voltage / current,
    "electric_power": lambda voltage, current: current * voltage,
    "heat_of_current": lambda current, resistance: current * resistance * current,
    "in_series": lambda parts: sum(parts, Quantity(Fraction(0), None)),
    "in_parallel": in_parallel,
    "divided_voltage": lambda voltage, upper, lower: voltage / (upper + lower) * lower,
    "wire_resistance": lambda resistivity, length, area: resistivity / area * length,
    "resistance_at": lambda resistance, coefficient, change: resistance + resistance * coefficient * change,
    "charge_of": lambda capacitance, voltage: voltage * capacitance,
    "capacitor_energy": lambda capacitance, voltage: HALF * capacitance * voltage * voltage,
    "coil_energy": lambda inductance, current: HALF * inductance * current * current,
    "charging_time": lambda resistance, capacitance: capacitance * resistance,
    "transformed_voltage": lambda voltage, turns, second_turns: voltage / turns * second_turns,
    "billed_energy": lambda power, time: power * time / read("3600000<J>") * read("1<kWh>"),
}

CHEMISTRY: dict[str, Function] = {
    "amount_of": lambda mass, molar_mass: mass / molar_mass,
    "mass_of": lambda amount, molar_mass: molar_mass * amount,
    "concentration": lambda amount, volume: amount / volume,
    "molarity": lambda mass, molar_mass, volume: mass / (molar_mass * volume),
    "diluted": lambda concentration, volume, filled: concentration * volume / filled,
    "dilution": lambda stock, wanted, volume: volume * wanted / stock,
    "mixed": lambda c1, v1, c2, v2: (c1 * v1 + c2 * v2) / (v2 + v1),
    "titrated": lambda ratio, titrant, used, sample: titrant * used * ratio / sample,
    "mass_fraction": lambda part, whole: part / whole,
    "reaction_yield": lambda actual, possible: actual / possible,
    "gas_pressure": lambda amount, temperature, volume: GAS_10 * amount * temperature / volume,
    "gas_volume": lambda amount, temperature, pressure: GAS_10 * amount * temperature / pressure,
    "gas_amount": lambda pressure, volume, temperature: pressure * volume / temperature / GAS_10,
    "heat": lambda mass, specific_heat, change: change * specific_heat * mass,
    "electrolysed": lambda current, time, molar_mass, charge: current * time / FARADAY_10 / charge * molar_mass,
}
