"""Forty planners at ten studies, against the reference."""
import asyncio
import random
import unittest
from collections import Counter

from hosting.tests import support
from hosting.tests.running import LOOPBACK, HostTest, Running
from hosting.tests.traffic import Client, Writer, shares, some_shape

STUDIES = [f"study{number}" for number in range(10)]
CLIENTS_PER_STUDY = 4
LINES_PER_CLIENT = 150
# How many lines each client of a study sends ahead of their replies: a planner waits for each reply, a program for none.
AHEAD = (1, 1, 20, LINES_PER_CLIENT)
# What the replies begin with, so that lines of every kind are seen to be accepted, by radio too, and the reasons that must be among them.
ACCEPTED = (b"81", b"82", b"83", b"84", b"85", b"86", b"01", b"88", b"C1", b"C2", b"C3", b"C4", b"C5", b"C6", b"41", b"C8")
REASONS = (b"FF01", b"FF02", b"FF03", b"FF05", b"FF0A", b"FF0C", b"FF0E", b"FF19")
OFTEN = 10


def some_clients(number: int) -> list[Client]:
    """The clients of a study, whose lines fit one another."""
    shape = some_shape(random.Random(number))
    return [Client(Writer(shape, CLIENTS_PER_STUDY * number + k).lines(LINES_PER_CLIENT), ahead) for k, ahead in enumerate(AHEAD)]


async def talk(host: Running, clients: dict[str, list[Client]]) -> None:
    """Lets all clients of all studies talk at the same time."""
    await asyncio.gather(*(client.talk(asyncio.open_connection(LOOPBACK, host.ports[name])) for name in clients for client in clients[name]))


class ManyTest(HostTest):
    def test_forty_clients_at_ten_studies_get_the_replies_of_the_reference(self) -> None:
        host = self.running(*STUDIES)
        clients = {name: some_clients(number) for number, name in enumerate(STUDIES)}
        asyncio.run(talk(host, clients))
        replies: Counter[bytes] = Counter()
        for name in STUDIES:
            with self.subTest(name):
                stored = host.stored(name)
                self.assertEqual([len(client.received) for client in clients[name]], [LINES_PER_CLIENT] * CLIENTS_PER_STUDY)
                self.assertEqual(shares(stored, clients[name]), {(LINES_PER_CLIENT,) * CLIENTS_PER_STUDY})
                replies.update(reply[:4] if reply.startswith(b"FF") else reply[:2] for _, reply in stored)
                self.verified(host, name)
                self.assertEqual([reply for _, reply in stored], support.reference([line for line, _ in stored]))
        for reply in (*ACCEPTED, *REASONS):
            self.assertGreater(replies[reply], OFTEN, f"such a reply is too rare: {replies}")


if __name__ == "__main__":
    unittest.main()
