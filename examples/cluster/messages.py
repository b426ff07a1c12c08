"""What programs say to their operator: a line with the time, and who says it."""
import datetime
import sys
import time

from etcd import Tell


def moment(seconds: float) -> str:
    """A time since 1970 as text, such as `2026-11-29T05:10:11.123Z`."""
    at = datetime.datetime.fromtimestamp(seconds, datetime.timezone.utc)
    return f"{at:%Y-%m-%dT%H:%M:%S}.{at.microsecond // 1000:03}Z"


def teller(name: str) -> Tell:
    """Says lines such as `2026-11-29T05:10:11.123Z feed a: TEXT` on standard error."""
    def tell(what: str) -> None:
        print(f"{moment(time.time())} {name}: {what}", file=sys.stderr, flush=True)

    return tell
