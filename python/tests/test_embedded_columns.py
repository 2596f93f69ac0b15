"""Programs in Python: quantities of pint, and columns of pandas."""
from fractions import Fraction
from typing import Any

import pytest

import umc


def test_quantities_of_pint(vehicle: Any) -> None:
    pint = pytest.importorskip("pint", reason="Debian's python3-pint isn't there")
    units = pint.UnitRegistry()
    found = vehicle.kinetic(2 * units.kg, Fraction(7, 2) * units.meter / units.second)
    assert found.text in ("49r2<kg m^2/s^2>", "49r4<kg m^2/s^2>")
    given = found.to_pint(units)
    assert given.magnitude == found.magnitude and isinstance(given.magnitude, Fraction) and given.check("[energy]")
    for lengths in ([1 * units.m, 2 * units.m], units.Quantity([1, 2], "m")):
        assert vehicle.mean(lengths).text == "3r2<m>"
    with pytest.raises(umc.ValueRefused):
        vehicle.metres(1.5 * units.foot)
    assert vehicle.metres(1.5 * units.foot, step="0.5").text == "1143r2500<m>"
    with pytest.raises(umc.ValueRefused, match="whole number"):
        vehicle.mean([units.Quantity(1, "m") ** 0.5])


def test_columns_of_pandas(vehicle: Any) -> None:
    pandas = pytest.importorskip("pandas", reason="Debian's python3-pandas isn't there")
    frame = pandas.DataFrame({"mass [kg]": [2, 3], "speed [m/s]": [1.5, 2.0], "n": ["1", "2.5"]})
    found = vehicle.kinetic.each(frame["mass [kg]"], frame["speed [m/s]"], step="0.5")
    assert [value.text for value in found] == ["9r4<kg m^2/s^2>", "6<kg m^2/s^2>"]
    assert vehicle.mean(frame["mass [kg]"]).text == "5r2<kg>"
    assert vehicle.mean(frame["n"], unit="m").text == "7r4<m>"
    assert vehicle.mean(frame["mass [kg]"].to_numpy(), unit="ft").text == "5r2<ft>"
    for missing in (None, float("nan"), pandas.NA, pandas.NaT):
        with pytest.raises(umc.ValueRefused, match="there is no value"):
            vehicle.mean(pandas.Series([1, missing], dtype=object), unit="m", step=1)
