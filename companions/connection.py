"""The connection to an office: who signs on, what an answer is, and what is done where none comes.

Through the proxy a person signs on with OFFICE_USER and OFFICE_PASSWORD, with OFFICE_TOKEN, or with an entry of a netrc file (NETRC, or ~/.netrc).
For trials the office's own port is asked, and the connection names person and moment itself.

A call that only reads is repeated while the office is away. A call that changes something is never repeated before the office was asked what
stands: after 502 and 504, and where a connection broke, it may have been made, and may be made a little later.
"""

import base64
import collections.abc
import dataclasses
import enum
import json
import netrc
import os
import pathlib
import socket
import ssl
import time
import typing
import urllib.parse

import httpx

from companions import values

PROXY = "http://127.0.0.1:8081"
PORT = "http://127.0.0.1:8080"
PAUSES = (0.2, 0.5, 1.0, 2.0)  # seconds before an office that is away is asked again; the last one from then on
SETTLING = 1.0  # seconds in which a call that had no answer may be made yet
TURNS = 3  # how often a call is made again, a second later, that met the turn of a second
TIMES = httpx.Timeout(90.0, connect=10.0)


class Trouble(Exception):
    """Why a command cannot go on; its text is for the person who typed it."""


class NotReached(Trouble):
    """The office gave no answer for as long as it was waited for."""


class Unclear(Trouble):
    """No answer says whether a call was made, and it must not be made twice."""


class SignOn(Trouble):
    """The proxy does not take the sign-on."""


class Refusal(Exception):
    """The office refused a call: its name, its value, and the office's own line."""

    def __init__(self, number: int, name: str, value: object, line: str) -> None:
        super().__init__(line)
        self.number, self.name, self.value, self.line = number, name, value, line
        # whether a try before had no answer, so that this very call may have been made
        self.is_doubted = False


class Doubt(enum.Enum):
    """What an answer that is none leaves open."""

    not_made = enum.auto()  # no office has seen the call, or it changed nothing
    may_be_made = enum.auto()


@dataclasses.dataclass(frozen=True)
class Missing:
    """No answer of the office."""

    doubt: Doubt
    why: str
    pause: float = 0.0


@dataclasses.dataclass(frozen=True)
class Made:
    """A change that stands: what the office said of it or would have said, and whether it stood before the call."""

    text: str
    was_there: bool


@dataclasses.dataclass(frozen=True)
class Target:
    """Which office is asked, by whom. With `person` it is the office's own port, at `moment` or now; otherwise the proxy."""

    url: str
    person: str | None = None
    moment: str | None = None
    authority: str | None = None
    patience: float = 120.0


def sign_on_of(url: str, settings: collections.abc.Mapping[str, str]) -> str:
    """The field Authorization, from the environment or a netrc file."""
    token, user, password = (settings.get(it, "") for it in ("OFFICE_TOKEN", "OFFICE_USER", "OFFICE_PASSWORD"))
    if token:
        if not (token.isascii() and token.isprintable()) or " " in token:
            raise SignOn("OFFICE_TOKEN has a space, a line end or another character that no token has")
        return f"Bearer {token}"
    if not (user and password):
        host = urllib.parse.urlsplit(url).hostname or ""
        user, password = of_netrc(settings.get("NETRC") or str(pathlib.Path.home() / ".netrc"), host, user)
    return "Basic " + base64.b64encode(f"{user}:{password}".encode()).decode()


def of_netrc(path: str, host: str, user: str) -> tuple[str, str]:
    """Name and password for a host in a netrc file."""
    try:
        entry = netrc.netrc(path).authenticators(host)
    except FileNotFoundError:
        entry = None
    except (OSError, UnicodeDecodeError, netrc.NetrcParseError) as error:
        raise SignOn(f"the netrc file {path} cannot be read: {error}") from error
    if entry is None or not entry[2] or user not in ("", entry[0]):
        raise SignOn(f"who signs on at {host}? Set OFFICE_USER and OFFICE_PASSWORD, or OFFICE_TOKEN, or write the host into {path} (or NETRC)")
    return entry[0], entry[2]


def parts_of(url: str) -> urllib.parse.SplitResult:
    """The parts of an office's address."""
    wrong = f"{url!r} is not the address of an office, as {PROXY}"
    try:
        parts = urllib.parse.urlsplit(url)
        is_right = parts.scheme in ("http", "https") and parts.hostname and parts.port != 0 and not (parts.query or parts.fragment)
    except ValueError as error:
        raise Trouble(wrong) from error
    if "@" in parts.netloc:
        raise Trouble("an address has no name and no password: set OFFICE_USER and OFFICE_PASSWORD")
    if not is_right:
        raise Trouble(wrong)
    return parts


def is_safe(url: str) -> bool:
    """Whether nobody on the network reads what is sent to an address."""
    parts = parts_of(url)
    return parts.scheme == "https" or parts.hostname in ("localhost", "127.0.0.1", "::1")


def pauses() -> collections.abc.Iterator[float]:
    yield from PAUSES
    while True:
        yield PAUSES[-1]


def send_at_once(answer: httpx.Response) -> None:
    """A call goes out as two writes, its fields and its body. Without this the second one waits until the first is acknowledged: 40 ms a call."""
    stream = answer.extensions.get("network_stream")
    if stream is not None:
        stream.get_extra_info("socket").setsockopt(socket.IPPROTO_TCP, socket.TCP_NODELAY, 1)


class Connection:
    """One caller's connection to one office, kept between calls."""

    def __init__(self, target: Target, settings: collections.abc.Mapping[str, str] = os.environ) -> None:
        parts = parts_of(target.url)
        self.target, self.url = target, target.url.rstrip("/")
        fields = {"User-Agent": "shelfoffice-tools"}
        if target.person is None:
            fields["Authorization"] = sign_on_of(target.url, settings)
        try:
            # nothing of the environment but what is named above: a sign-on goes to no other proxy
            verify: str | bool = (target.authority or True) if parts.scheme == "https" else False
            hooks = {"response": [send_at_once]}
            self.client = httpx.Client(headers=fields, timeout=TIMES, trust_env=False, verify=verify, event_hooks=hooks)
        except (OSError, ssl.SSLError) as error:
            raise Trouble(f"the certificates of {target.authority} cannot be read: {error}") from error

    def close(self) -> None:
        self.client.close()

    def moment(self) -> str:
        """The moment of a call to the office's own port."""
        return self.target.moment or values.text_of(values.now())

    def send(self, method: str, path: str, body: bytes | None) -> str | Missing:
        """One try; of two calls at the turn of a second the later may come first, and the other, refused with MomentBehind, is made again."""
        for _ in range(TURNS):
            try:
                return self.send_once(method, path, body)
            except Refusal as refusal:
                if refusal.name != "MomentBehind" or self.target.moment is not None:
                    raise
            time.sleep(1.0)
        return self.send_once(method, path, body)

    def send_once(self, method: str, path: str, body: bytes | None) -> str | Missing:
        """What the office answered, or that it did not. Refusals and whatever no repetition helps against are raised."""
        fields = {} if self.target.person is None else {"X-Person": self.target.person, "X-Moment": self.moment()}
        try:
            answer = self.client.request(method, self.url + path, content=body, headers=fields)
        except (httpx.ConnectError, httpx.ConnectTimeout, httpx.PoolTimeout) as error:
            if "CERTIFICATE_VERIFY_FAILED" in str(error):
                raise Trouble(f"the certificate of {self.url} is not known here: name the plant's own with --ca ({error})") from error
            return Missing(Doubt.not_made, f"no connection to {self.url}: {error}")
        except httpx.RequestError as error:
            return Missing(Doubt.may_be_made, f"the connection to {self.url} broke: {error or type(error).__name__}")
        return read_answer(answer, method, path)

    def ask(self, path: str) -> str:
        """The answer to a call that only reads."""
        until = time.monotonic() + self.target.patience
        for pause in pauses():
            answer = self.send("GET", path, None)
            if isinstance(answer, str):
                return answer
            self.wait(answer, pause, until)
        raise AssertionError("pauses do not end")

    def change(self, path: str, body: bytes, stands: collections.abc.Callable[[], str | None], is_once: bool = False) -> Made:
        """Makes a call that changes something. Where no answer comes `stands` is asked, which says what the office would have answered if
        the change stands, and nothing if it does not: only then is the call made once more. With `is_once` it is made once more only if no office
        has seen it, since a person may have ended by then what it has done."""
        until, is_doubted = time.monotonic() + self.target.patience, False
        for pause in pauses():
            try:
                answer = self.send("POST", path, body)
            except Refusal as refusal:
                refusal.is_doubted = is_doubted
                raise
            if isinstance(answer, str):
                return Made(answer, False)
            is_doubted = is_doubted or answer.doubt is Doubt.may_be_made
            self.wait(answer, pause, until)
            there = stands()
            if there is None and answer.doubt is Doubt.may_be_made:
                time.sleep(SETTLING)
                there = stands()
            if there is not None:
                return Made(there, not is_doubted)
            if is_once and is_doubted:
                raise Unclear(answer.why)
        raise AssertionError("pauses do not end")

    def wait(self, missing: Missing, pause: float, until: float) -> None:
        """Waits before the next try, or gives up."""
        pause = max(pause, missing.pause)
        if time.monotonic() + pause > until:
            raise NotReached(f"gave up after {self.target.patience:.0f} s: {missing.why}")
        time.sleep(pause)


def waiting_time(answer: httpx.Response) -> float:
    """The seconds of Retry-After, at most a minute."""
    text = answer.headers.get("Retry-After", "")
    return min(float(text), 60.0) if text.isdigit() else 0.0


def members_of(text: str) -> dict[str, typing.Any]:
    """The members of a JSON object; none where the text is something else, such as a page of the proxy."""
    try:
        found = json.loads(text)
    except ValueError:
        return {}
    return found if isinstance(found, dict) else {}


def read_answer(answer: httpx.Response, method: str, path: str) -> str | Missing:
    """What the office said, or that it said nothing."""
    text, status = answer.text, answer.status_code
    if status == 200:
        if answer.headers.get("Content-Type", "").startswith("text/html"):
            raise Trouble(f"{method} {path}: answered with a page, which no office does: is this the address of one?")
        return text
    said = members_of(text)
    if "refused" in said:
        raise Refusal(int(said["refused"]), str(said["name"]), said.get("value"), text)
    if "malformed" in said:
        raise Trouble(f"{method} {path} is malformed: {text}")
    if "fault" in said:
        return Missing(Doubt.may_be_made, f"the office answers {text}")
    if status == 503:
        return Missing(Doubt.not_made, "the unit is being moved to another office (503)", waiting_time(answer))
    if status in (502, 504):
        return Missing(Doubt.may_be_made, f"the office is away or too slow ({status})")
    if status == 500:
        return Missing(Doubt.not_made, "the proxy cannot ask who signs on (500): its directory is away")
    if status in (401, 403):
        why = "name or password is wrong" if status == 401 else "the proxy knows no person of this sign-on name, or takes no calls from here"
        raise SignOn(f"the proxy answers {status}: {why}")
    if status == 413:
        raise Trouble(f"{method} {path}: the body is too large for the proxy (413)")
    raise Trouble(f"{method} {path}: answered {status}, which no office says")


def json_body(members: collections.abc.Mapping[str, object]) -> bytes:
    return json.dumps(members, separators=(",", ":")).encode()
