"""`office successor` in any order of kills, lost answers and what people do meanwhile: it makes nothing twice."""

import collections
import itertools
import json
import random

import pytest

from companions import changes, connection, successor, tally, values
from companions.backups import opened
from companions.calls import Office
from companions.tests.plant import Plant
from companions.tests.test_carrying import ENDS
from companions.tests.test_successor import LATER, Kill, filled, running

STEPS = ("root", "ste", *["eve"] * 3, "end", "take", "decide")


class Watched:
    """Sends for a typist, is killed before one of its steps, now and then loses an answer, and counts what the office has made."""

    def __init__(self, link: connection.Connection, unit: str, chosen: random.Random, made: collections.Counter[tuple[str, ...]]) -> None:
        self.real, self.unit, self.chosen, self.made = link.send, unit, chosen, made
        self.left = itertools.count() if chosen.random() < 0.6 else iter(range(chosen.randrange(4, 260)))

    def send(self, method: str, path: str, body: bytes | None) -> str | connection.Missing:
        self.step()
        answer = self.real(method, path, body)
        if method == "POST" and path.startswith(f"/units/{self.unit}"):
            self.count(path.removeprefix(f"/units/{self.unit}"), json.loads(body or b"{}"))
        self.step()
        return answer if self.chosen.random() > 0.01 else connection.Missing(connection.Doubt.may_be_made, "lost")

    def step(self) -> None:
        if next(self.left, None) is None:
            raise Kill

    def count(self, path: str, members: dict[str, object]) -> None:
        """Notes, and whatever ends one, may come more than once."""
        if not path.endswith("/withdraw") and not str(members.get("cause", "")).startswith(changes.NOTE):
            self.made[self.unit, path, *(str(members.get(it)) for it in ("person", "role", "kind", "tag"))] += 1


def type_it(plant: Plant, old: successor.Old, person: str, unit: str, chosen: random.Random, made: collections.Counter[tuple[str, ...]]) -> None:
    with Office(connection.Target(f"http://127.0.0.1:{plant.port}", person, LATER)) as office, pytest.MonkeyPatch.context() as patch:
        patch.setattr(office.link, "send", Watched(office.link, unit, chosen, made).send)
        try:
            with tally.Tally() as count:
                successor.Succession(office, old, unit, count).make("ste")
        except (Kill, connection.Trouble, connection.Refusal):
            pass


def act(plant: Plant, what: str, unit: str, chosen: random.Random) -> None:
    """What a person does in the new unit: ends what runs, takes a role, or decides of a proposal."""
    is_open = plant.rows(f"SELECT 1 FROM grants WHERE unit = '{unit}' AND person = 'vic'")
    if what == "end" and is_open and (tags := sorted(running(plant, unit))):
        tag = chosen.choice(tags)
        person, word = ENDS[tag]
        plant.call(person, LATER, f"/units/{unit}/alarms/{tag}/{word}", {})
    if what == "take":
        # one is left: a unit in which nobody holds any is as it was opened
        held = plant.rows(f"SELECT person, role_no FROM grants WHERE unit = '{unit}' AND person NOT IN ('ste', 'eve', 'vic') ORDER BY 1, 2")
        for person, role in chosen.sample(held, 1) if len(held) > 1 else []:
            plant.call("ste", LATER, f"/units/{unit}/withdrawals", {"person": person, "role": values.Role(role).name})
    if what == "decide":
        text = f"SELECT number FROM changes WHERE unit = '{unit}' AND state_no = 1 AND coalesce(cause, '') NOT LIKE '{changes.NOTE}%' ORDER BY 1"
        for number, in chosen.sample(plant.rows(text), 1) if plant.rows(text) else []:
            person, word = chosen.choice([("amy", "approve"), ("amy", "reject"), ("eve", "withdraw")])
            plant.call(person, LATER, f"/units/{unit}/changes/{number}/{word}", {})


@pytest.mark.parametrize("seed", range(4))
def test_nothing_is_made_twice(office: Plant, monkeypatch: pytest.MonkeyPatch, seed: int) -> None:
    filled(office).copy("backup")
    chosen, made = random.Random(seed), collections.Counter[tuple[str, ...]]()
    with opened(office.folder / "backup") as books:
        old = successor.read_old(books, "U1")
    monkeypatch.setattr(connection, "PAUSES", (0.0,))
    monkeypatch.setattr(connection, "SETTLING", 0.0)
    for unit in "U2", "U3", "U4":
        for what in ("root", "ste", *chosen.choices(STEPS, k=14)):
            if what in ("root", "ste", "eve"):
                type_it(office, old, what, unit, chosen, made)
            else:
                act(office, what, unit, chosen)
    assert made and {key: count for key, count in made.items() if count > 1} == {}
