"""etcd, asked over its JSON gateway, through one of its members."""
import base64
import http.client
import itertools
import json
import ssl
import time
from collections.abc import Callable, Iterator
from typing import NamedTuple

# A call is made at the next member after so many seconds, twice as many after each round of them all, and so many at last.
# What a member handed on to a leader that died is lost, so to wait for long is of no use.
CALL_SECONDS, LONGEST_CALL_SECONDS = 2.0, 16.0
WATCH_SECONDS = 5.0  # of silence, after which another watch is made, at the next member
RETRY_SECONDS = 0.1
# How often it is said that no member answers.
TELL_SECONDS = 10.0
# What etcd says of a token that it doesn't know, or no longer. Another one is asked for then.
STALE = ("invalid auth token", "revision of auth store is old", "user name is empty")

Tell = Callable[[str], None]


class LogError(Exception):
    """etcd refuses what it is asked, or its keys aren't a log's: to go on would be of no use."""


class SpaceIsUsedUp(LogError):
    """etcd takes no more until its operator has made room."""

    def __init__(self) -> None:
        super().__init__("etcd's space is used up: give it more, or compact and defragment it, and disarm its alarm")


class AlreadyThere(LogError):
    """A user or a role of etcd is there already."""


class NobodyAnswers(Exception):
    """No member of etcd answered in the time that was given."""


class Unanswered(Exception):
    """This member didn't answer, or can't now."""


class StaleToken(Unanswered):
    """This member doesn't know the token."""


class Compacted(Exception):
    """What was asked for is of a revision that etcd has dropped."""


class Access(NamedTuple):
    """As whom etcd is asked, over TLS where there is a context. Without a user nobody is named."""

    context: ssl.SSLContext | None = None
    user: str = ""
    password: str = ""


def text(data: str | bytes) -> str:
    return base64.b64encode(data.encode() if isinstance(data, str) else data).decode()


class Etcd:
    """etcd, asked through one of its members, and through the next one where that doesn't answer."""

    def __init__(self, addresses: list[tuple[str, int]], tell: Tell, give_up: float | None = None, access: Access = Access()):
        self.addresses, self.tell, self.give_up, self.access = addresses, tell, give_up, access
        self.place = 0
        self.connection: http.client.HTTPConnection | None = None
        self.token: str | None = None  # empty where etcd asks for none
        self.cluster: str | None = None
        self.told = 0.0

    def another(self) -> "Etcd":
        """The same etcd, for another thread."""
        return Etcd(self.addresses, self.tell, self.give_up, self.access)

    def member(self) -> str:
        """Where the present member is."""
        host, port = self.addresses[self.place]
        return f"{host}:{port}"

    def connect(self, seconds: float) -> http.client.HTTPConnection:
        host, port = self.addresses[self.place]
        if self.access.context:
            return http.client.HTTPSConnection(host, port, timeout=seconds, context=self.access.context)
        return http.client.HTTPConnection(host, port, timeout=seconds)

    def leave(self) -> None:
        """Goes to the next member."""
        if self.connection:
            self.connection.close()
        self.connection = None
        self.place = (self.place + 1) % len(self.addresses)

    def call(self, path: str, body: dict) -> dict:
        """An answer to a call that may be made again: it is tried until a member answers, or for `give_up` seconds."""
        start = time.monotonic()
        for tried in itertools.count():
            seconds = min(CALL_SECONDS * 2 ** (tried // len(self.addresses)), LONGEST_CALL_SECONDS)
            try:
                return self.ask_member(path, body, seconds)
            except (Unanswered, SpaceIsUsedUp) as fault:
                if isinstance(fault, SpaceIsUsedUp) and self.give_up is not None:
                    raise
                self.leave()
                now = time.monotonic()
                if self.give_up is not None and now - start >= self.give_up:
                    raise NobodyAnswers(f"etcd didn't answer for {self.give_up:.0f} s: {fault}") from None
                if now - start >= TELL_SECONDS and now - self.told >= TELL_SECONDS:
                    self.told = now
                    self.tell(f"etcd hasn't answered for {now - start:.0f} s, and is asked on: {fault}")
                time.sleep(RETRY_SECONDS)

    def ask_member(self, path: str, body: dict, seconds: float) -> dict:
        """The answer of the present member, within these seconds. Where it doesn't know the token, another one is asked for."""
        if self.access.user and self.token is None:
            self.token = self.authenticate(seconds)
        try:
            return self.post(path, body, seconds)
        except StaleToken:
            self.token = self.authenticate(seconds)
            return self.post(path, body, seconds)

    def authenticate(self, seconds: float) -> str:
        """A token for the user; none where etcd knows no users."""
        named = {"name": self.access.user, "password": self.access.password}
        self.token = None
        try:
            return self.post("/v3/auth/authenticate", named, seconds)["token"]
        except Unanswered as fault:
            if "authentication is not enabled" in str(fault):
                return ""
            raise

    def headers(self) -> dict[str, str]:
        return {"Content-Type": "application/json"} | ({"Authorization": self.token} if self.token else {})

    def post(self, path: str, body: dict, seconds: float) -> dict:
        """What the present member answers."""
        self.connection = self.connection or self.connect(seconds)
        where = self.member()
        try:
            self.connection.request("POST", path, json.dumps(body), self.headers())
            response = self.connection.getresponse()
            said = response.read()
            # A refusal may be plain text.
            is_text = response.status == 400 and not said.startswith(b"{")
            answer = {"code": 3, "message": said.decode()} if is_text else json.loads(said)
        except (OSError, http.client.HTTPException, ValueError) as fault:
            self.drop()
            raise Unanswered(f"{where}: {fault or type(fault).__name__}") from None
        if response.status != 200:
            refuse(where, answer, self.access.user)
        if "header" not in answer:
            raise LogError(f"what answers at {where} is no etcd")
        self.know(where, answer["header"])
        return answer

    def drop(self) -> None:
        """Drops a connection in whose midst something failed."""
        if self.connection:
            self.connection.close()
        self.connection = None

    def know(self, where: str, header: dict) -> None:
        """Looks whether this is the etcd that answered before, and no other one that is at this address."""
        self.cluster = self.cluster or header["cluster_id"]
        if header["cluster_id"] != self.cluster:
            raise LogError(f"the member at {where} is of another etcd than the one before")

    def watch(self, key: str, end: str, start: int) -> Iterator[dict]:
        """What the present member tells of these keys from a revision on, until it is silent for a while.

        A member without a leader hangs up, since a watch of it would be silent for good. Long answers come in pieces."""
        create = {"key": text(key), "range_end": text(end), "start_revision": str(start), "fragment": True}
        headers = self.headers() | {"Grpc-Metadata-hasleader": "true"}
        connection, where = self.connect(WATCH_SECONDS), self.member()
        try:
            connection.request("POST", "/v3/watch", json.dumps({"create_request": create}), headers)
            response = connection.getresponse()
            buffer = b""
            while piece := response.read1(1 << 16):
                *lines, buffer = (buffer + piece).split(b"\n")
                for line in filter(None, lines):
                    answer = json.loads(line)
                    if "result" not in answer:
                        refuse(where, answer.get("error", answer), self.access.user)
                    self.know(where, answer["result"]["header"])
                    yield self.unless_ended(where, answer["result"])
            raise Unanswered(f"{where} hung up")
        except (OSError, http.client.HTTPException, ValueError) as fault:
            raise Unanswered(f"{where}: {fault or type(fault).__name__}") from None
        finally:
            connection.close()

    def unless_ended(self, where: str, told: dict) -> dict:
        """What a watch told, unless it is its end."""
        if not told.get("canceled"):
            return told
        if int(told.get("compact_revision", 0)):
            raise Compacted()
        # Also where the token is stale. The next call asks for another one, or finds that it isn't permitted.
        raise Unanswered(f"{where} ended a watch: {told.get('cancel_reason', 'no reason told')}")


def refuse(where: str, error: object, user: str) -> None:
    """Raises what etcd's error means."""
    error = error if isinstance(error, dict) else {"message": error}
    said = str(error.get("message") or error.get("error") or error)
    if "too large" in said or "larger than max" in said:
        raise LogError("the value is too large for etcd: smaller batches are wanted")
    if "space exceeded" in said:
        raise SpaceIsUsedUp()
    if "compacted" in said:
        raise Compacted()
    if "name already exists" in said:
        raise AlreadyThere(said)
    if user and any(each in said for each in STALE):
        raise StaleToken(f"{where}: {said}")
    # Refusals of what was asked, by gRPC's numbers: invalid, not permitted, not there, not known.
    if error.get("code", error.get("grpc_code")) in (3, 7, 12, 16):
        raise LogError(f"etcd at {where} refuses: {said}")
    raise Unanswered(f"{where}: {said}")
