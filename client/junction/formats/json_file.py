"""JSON: the costs of a study as tables. Programs write and read it; it is the one format that keeps names and the scale.

    {"format": "junction-study", "version": 1, "scale": 840,
     "trains": [{"name": "RE 5", "choices": [{"name": "platform 1", "cost": 0}]}],
     "pairs": [{"trains": [0, 3], "costs": [[0, null], [5, 0]]}]}

`null` is forbidden. A scale that is not there is 840, pairs that are not there are none, and a name that is not there is the number. Other keys than these are
mistakes, and so is a key that stands twice. A mistake is told with the path of keys to it.
"""

from typing import Any

from junction.formats.json_parts import Reading, listed, said
from junction.formats.parts import CHOICES, COST, PAIRS, SCALE_MOST, TRAINS, Read, beyond, check_names
from junction.kinds import counted
from junction.study import SCALE, Choice, Cost, Pair, Study, Train

FORMAT = "junction-study"
VERSION = 1

# The choices of each train; None where its train is no train, so that no pair is judged by them.
Sizes = list[int | None]


def read(text: str, path: str) -> Read:
    """The study of a file."""
    reading = Reading(path)
    whole = reading.whole(text, FORMAT, VERSION, ("trains",), ("scale", "pairs"))
    scale = reading.number(whole.get("scale", SCALE), "scale", 1, SCALE_MOST, f"scale: scales are from 1 to {SCALE_MOST}")
    trains = _trains(reading, whole.get("trains", []))
    if not trains:
        reading.mistakes.end()
    pairs = _pairs(reading, whole.get("pairs", []), [None if train is None else len(train.choices) for train in trains])
    reading.mistakes.end()
    return Read(Study(tuple(train for train in trains if train is not None), tuple(sorted(pairs)), scale))


def write(study: Study) -> str:
    """A study as a file: a line for each train and for each pair."""
    check_names(study)
    trains = [{"name": train.name, "choices": [{"name": choice.name, "cost": choice.cost} for choice in train.choices]} for train in study.trains]
    pairs = [{"trains": [pair.first, pair.second], "costs": pair.costs} for pair in study.pairs]
    front = f'  "format": "{FORMAT}",\n  "version": {VERSION},\n  "scale": {study.scale},\n'
    return f'{{\n{front}  "trains": {listed(trains)},\n  "pairs": {listed(pairs)}\n}}\n'


def _trains(reading: Reading, value: Any) -> list[Train | None]:
    """The trains, as many as there are: None for one that is wrong."""
    items = reading.items(value, "trains")
    trains: list[Train | None] = []
    seen: dict[str, str] = {}
    for number, item in enumerate(items):
        if number == TRAINS:
            reading.wrong(f"trains[{number}]", beyond("train", TRAINS))
        trains.append(_train(reading, item, number, seen) if number < TRAINS else None)
    if value == []:
        reading.wrong("trains", "there is no train")
    return trains


def _train(reading: Reading, value: Any, number: int, seen: dict[str, str]) -> Train | None:
    path = f"trains[{number}]"
    train = reading.keys(value, path, ("choices",), ("name",))
    if train is None:
        return None
    name = reading.name(train.get("name", str(number)), f"{path}.name", seen)
    choices = _choices(reading, train["choices"], f"{path}.choices")
    return None if choices is None else Train(name, choices)


def _choices(reading: Reading, value: Any, path: str) -> tuple[Choice, ...] | None:
    """The choices of a train; None where their number is not known."""
    items = reading.items(value, path)
    seen: dict[str, str] = {}
    choices = []
    for number, item in enumerate(items[:CHOICES]):
        choice = reading.keys(item, f"{path}[{number}]", ("cost",), ("name",)) or {"cost": 0}
        name = reading.name(choice.get("name", str(number)), f"{path}[{number}].name", seen)
        choices.append(Choice(name, _cost(reading, choice["cost"], f"{path}[{number}].cost")))
    if len(items) > CHOICES:
        reading.wrong(f"{path}[{CHOICES}]", beyond("choice", CHOICES))
    if value == []:
        reading.wrong(path, "there is no choice")
    return tuple(choices) if 0 < len(items) <= CHOICES else None


def _pairs(reading: Reading, value: Any, sizes: Sizes) -> list[Pair]:
    """The pairs, in the order of the file."""
    items = reading.items(value, "pairs")
    seen: dict[tuple[int, int], int] = {}
    pairs = []
    for number, item in enumerate(items[:PAIRS]):
        path = f"pairs[{number}]"
        pair = reading.keys(item, path, ("trains", "costs"))
        trains = None if pair is None else _two(reading, pair["trains"], f"{path}.trains", len(sizes))
        if pair is None or trains is None:
            continue
        if seen.setdefault(trains, number) != number:
            reading.wrong(f"{path}.trains", f"trains {trains[0]} and {trains[1]} are the pair of pairs[{seen[trains]}] too")
        pairs.append(Pair(*trains, _costs(reading, pair["costs"], f"{path}.costs", sizes[trains[0]], sizes[trains[1]])))
    if len(items) > PAIRS:
        reading.wrong(f"pairs[{PAIRS}]", beyond("pair", PAIRS))
    return pairs


def _two(reading: Reading, value: Any, path: str, trains: int) -> tuple[int, int] | None:
    """The trains of a pair."""
    numbers = [item for item in reading.items(value, path) if type(item) is int and 0 <= item < trains]
    if not isinstance(value, list):
        return None
    if len(value) != 2 or len(numbers) != 2 or numbers[0] >= numbers[1]:
        reading.wrong(path, f"{said(value)} is no pair: it is of two trains, the lower first, and trains are from 0 to {trains - 1}")
        return None
    return numbers[0], numbers[1]


def _costs(reading: Reading, value: Any, path: str, rows: int | None, columns: int | None) -> tuple[tuple[Cost, ...], ...]:
    """The entries of a pair, a row for each choice of the first train."""
    lists = reading.items(value, path)
    if rows is not None and isinstance(value, list) and len(lists) != rows:
        reading.wrong(path, f"the number of rows is {len(lists)}, and the first train has {counted(rows, 'choice')}")
    costs = []
    for number, row in enumerate(lists):
        where = f"{path}[{number}]"
        entries = reading.items(row, where)
        if columns is not None and isinstance(row, list) and len(entries) != columns:
            reading.wrong(where, f"the number of costs is {len(entries)}, and the second train has {counted(columns, 'choice')}")
        costs.append(tuple(_cost(reading, entry, f"{where}[{place}]") for place, entry in enumerate(entries)))
    return tuple(costs)


def _cost(reading: Reading, value: Any, path: str) -> Cost:
    """A cost, or what is forbidden."""
    return None if value is None else reading.number(value, path, 0, COST, f"cost: costs are from 0 to {COST}, or null")
