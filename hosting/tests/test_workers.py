"""The worker of a study, with a study and askers that only note what they are asked and told."""
import asyncio
import threading
import unittest
from collections.abc import Callable, Iterable

from hosting.store import NotStored
from hosting.tests.running import PATIENCE
from hosting.workers import TOGETHER_LINES, Worker

FAILS = b"fails"
BREAKS = b"breaks"
LAST = b"last"


class Study:
    """Answers each line with itself, once it may go on."""

    def __init__(self) -> None:
        self.go_on = threading.Event()
        self.begun = threading.Event()
        self.stored: list[list[bytes]] = []
        self.closed = False

    def take_all(self, lines: Iterable[bytes]) -> list[bytes]:
        taken = []
        for line in lines:
            taken.append(line)
            self.begun.set()
            self.go_on.wait(PATIENCE)
        if FAILS in taken:
            raise NotStored("no room")
        if BREAKS in taken:
            raise ValueError("broken")
        self.stored.append(taken)
        return taken

    def close(self) -> None:
        self.closed = True


class Asker:
    """Notes what it is told."""

    def __init__(self) -> None:
        self.failed = False
        self.told: list[bytes | str] = []

    def answered(self, reply: bytes) -> None:
        self.told.append(reply)

    def not_stored(self, reason: str) -> None:
        self.told.append(reason)


class WorkerTest(unittest.IsolatedAsyncioTestCase):
    def setUp(self) -> None:
        self.study = Study()
        self.one, self.other = Asker(), Asker()

    async def begin(self, open_study: Callable[[], Study]) -> Worker:
        """A worker that has opened its study, unless that fails."""
        worker = Worker("a", open_study, asyncio.get_running_loop())
        worker.start()
        await worker.opened
        return worker

    async def end(self, worker: Worker) -> None:
        """Lets the worker answer all that waits, and end."""
        last = Asker()
        worker.ask(last, LAST)
        self.study.go_on.set()
        async with asyncio.timeout(PATIENCE):
            while not last.told:
                await asyncio.sleep(0.001)
            worker.stop()
            await worker.ended
        self.assertTrue(self.study.closed)

    def hold_up(self, worker: Worker) -> None:
        """Asks for a first line, which stays in hand."""
        worker.ask(self.one, b"first")
        self.assertTrue(self.study.begun.wait(PATIENCE))

    async def test_order_and_who_asked(self) -> None:
        worker = await self.begin(lambda: self.study)
        self.hold_up(worker)
        for number in range(100):
            worker.ask(self.one if number % 3 else self.other, b"%d" % number)
        await self.end(worker)
        self.assertEqual(sum(self.study.stored, []), [b"first", *(b"%d" % number for number in range(100)), LAST])
        self.assertLessEqual(max(map(len, self.study.stored)), TOGETHER_LINES)
        self.assertEqual(self.one.told, [b"first", *(b"%d" % number for number in range(100) if number % 3)])
        self.assertEqual(self.other.told, [b"%d" % number for number in range(0, 100, 3)])

    async def test_lines_behind_one_that_is_not_stored(self) -> None:
        worker = await self.begin(lambda: self.study)
        self.hold_up(worker)
        for number in range(2 * TOGETHER_LINES):
            worker.ask(self.one, FAILS if number == 1 else b"behind")
        worker.ask(self.other, b"other")
        await self.end(worker)
        self.assertEqual(self.one.told, ["no room"])
        self.assertEqual(self.other.told, [b"other"])
        self.assertEqual(sum(self.study.stored, []), [b"other", LAST])

    async def test_stop_after_the_line_in_hand(self) -> None:
        worker = await self.begin(lambda: self.study)
        self.hold_up(worker)
        for _ in range(3):
            worker.ask(self.one, b"behind")
        worker.stop()
        self.study.go_on.set()
        await asyncio.wait_for(worker.ended, PATIENCE)
        self.assertEqual(self.one.told, [b"first"])
        self.assertEqual(self.study.stored, [[b"first"]])
        self.assertTrue(self.study.closed)

    async def test_study_that_cannot_be_opened(self) -> None:
        def fail() -> Study:
            raise NotStored("damaged")

        with self.assertRaisesRegex(NotStored, "damaged"):
            await self.begin(fail)

    async def test_study_that_breaks(self) -> None:
        worker = await self.begin(lambda: self.study)
        self.study.go_on.set()
        worker.ask(self.one, BREAKS)
        with self.assertRaisesRegex(ValueError, "broken"):
            await asyncio.wait_for(worker.ended, PATIENCE)
        self.assertTrue(self.study.closed)
        self.assertEqual(self.one.told, [])


if __name__ == "__main__":
    unittest.main()
