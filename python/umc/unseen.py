"""What one doesn't see of a refused text on the screen: how it is encoded, and which character stands at a place."""
import unicodedata

from umc.reports import Report
from umc.texts import Place, Text

UTF_16 = (b"\xff\xfe", b"\xfe\xff")
SEEN = range(0x21, 0x7F)


def unseen(text: Text, report: Report, place: Place) -> list[str]:
    """What is told of bytes that are no UTF-8, and of a character that no token begins with."""
    data = next((source.data for source in text.sources if source.name == place.file), b"")
    if report.status == 3:
        return [f"{'the text is UTF-16; ' if data.startswith(UTF_16) else ''}save it as UTF-8"]
    if report.status != 4 or report.message != "character":
        return []
    line = data.decode("utf-8", "replace").split("\n")[place.line - 1]
    return unseen_sign(line[place.column - 1:place.column])


def unseen_sign(sign: str) -> list[str]:
    """What is told of a character that no token begins with, if it isn't plainly seen; the empty text is none."""
    if not sign or ord(sign) in SEEN:
        return []
    return [f"the character is U+{ord(sign):04X} {unicodedata.name(sign, '')}".rstrip()]
