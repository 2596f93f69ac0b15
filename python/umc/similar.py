"""Names that are like a name which isn't there."""
import difflib


def similar(name: str, names: list[str]) -> list[str]:
    """At most four names that a person may have meant, the closest first."""
    return difflib.get_close_matches(name, names, n=4, cutoff=0.65)
