"""Tests of the Python module over the shared library: JUZVAROLA_LIBRARY names it. `make pythoncheck` runs them."""

import ctypes
import os
import subprocess
import sys
import tempfile
import unittest
from concurrent.futures import ThreadPoolExecutor
from pathlib import Path

import juzvarola
from juzvarola import Form, Plan, Result, Stop

HOST = Path(__file__).resolve().parents[1]
JOBS = sorted((HOST.parent / "jobs").glob("*.txt"))
EXAMPLE = (HOST.parent / "jobs/00_example.txt").read_bytes()
FORM = Form(horizon=6, openings=[2, 3, 4, 5], fees=[10] * 4, lives=[3, 4], lefts=[2, 4], prices=[5] * 4 + [7] * 4)


class Calls(unittest.TestCase):
    def test_the_specifications_job(self):
        planned = juzvarola.plan(EXAMPLE)
        self.assertEqual((planned.result, planned.nodes, planned.floor, planned.fault), (Result.OK, 11, 37, None))
        self.assertEqual(planned.plan.cost, 37)
        self.assertEqual(planned.plan.stops, (Stop(2, (1,)), Stop(4, (1, 2))))
        verdict = juzvarola.judge(EXAMPLE, planned.plan)
        self.assertEqual((verdict.result, verdict.cost), (Result.OK, 37))
        verdict = juzvarola.judge(EXAMPLE.decode(), "")
        self.assertEqual((verdict.result, verdict.part, verdict.due), (Result.NOT_KEPT, 1, 2))
        verdict = juzvarola.judge(EXAMPLE, planned.plan.text.replace(b"cost=37", b"cost=36"))
        self.assertEqual((verdict.result, verdict.cost), (Result.WRONG_COST, 37))
        self.assertEqual(juzvarola.plan(EXAMPLE, 8).result, Result.CUT_SHORT)
        self.assertEqual((juzvarola.plan(EXAMPLE, 6).plan, juzvarola.plan(EXAMPLE, 1 << 40)), (None, planned))
        counted = juzvarola.count(EXAMPLE)
        self.assertEqual((counted.result, counted.count, counted.or_more), (Result.OK, 17, False))

    def test_a_hall(self):
        text = b"machines=2\ncall=100\n" + EXAMPLE + EXAMPLE
        planned = juzvarola.hall(text)
        own = juzvarola.plan(EXAMPLE).plan
        self.assertEqual((planned.result, planned.floor, planned.cost, planned.fault), (Result.OK, 74, 274, None))
        self.assertEqual(planned.plans, (own, own))
        self.assertEqual(juzvarola.judge(EXAMPLE, planned.plans[1]).result, Result.OK)
        unlike = juzvarola.hall(text[: -len(EXAMPLE)] + EXAMPLE.replace(b"horizon=6", b"horizon=7"))
        self.assertEqual((unlike.result, unlike.fault.shown, unlike.plans), (Result.UNLIKE, b"horizon=7", ()))
        self.assertEqual((juzvarola.hall(text, 0).result, juzvarola.hall(text, 0).cost), (Result.CUT_SHORT, None))

    def test_the_latest_time_habit(self):
        habit = juzvarola.latest(EXAMPLE, juzvarola.plan(EXAMPLE).plan)
        self.assertEqual((habit.result, habit.fault, habit.plan.cost), (Result.OK, None, 37))
        self.assertEqual(habit.plan.stops, (Stop(2, (1,)), Stop(4, (1, 2))))
        # All openings: part 1 at 2 and 5, part 2 at 4; the stop at 3 stays, with nothing changed. The stated cost is set aside.
        stops = "cost=0\nstops=4\n" + "".join(f"stop={step}\ncount=0\n" for step in (2, 3, 4, 5))
        habit = juzvarola.latest(EXAMPLE.decode(), stops)
        self.assertEqual(habit.plan.stops, (Stop(2, (1,)), Stop(3, ()), Stop(4, (2,)), Stop(5, (1,))))
        self.assertEqual((habit.plan.cost, juzvarola.judge(EXAMPLE, habit.plan).result), (57, Result.OK))
        habit = juzvarola.latest(EXAMPLE, "")
        self.assertEqual((habit.result, habit.plan, habit.lines), (Result.NO_PLAN, None, b"result=6\n"))
        habit = juzvarola.latest(EXAMPLE, "cost=0\nstops=1\nstop=6\n")
        self.assertEqual((habit.result, habit.fault.text, habit.fault.shown), (Result.BAD_STOP, 2, b"stop=6"))
        self.assertEqual(juzvarola.latest(b"", "").fault.text, 1)

    def test_the_optimum(self):
        best = juzvarola.optimum(EXAMPLE)
        self.assertEqual((best.result, best.nodes, best.floor, best.plan), (Result.OK, None, None, juzvarola.plan(EXAMPLE).plan))
        self.assertEqual(juzvarola.optimum(EXAMPLE.replace(b"left=2", b"left=1", 1)).result, Result.NO_PLAN)
        self.assertEqual(juzvarola.optimum(b"horizon=1\n").fault.shown, b"horizon=1")

    def test_carrying_on(self):
        done = "step=3\ncost=15\nstops=1\nstop=2\ncount=1\npart=1\n"
        rest = juzvarola.carry(EXAMPLE, done)
        self.assertEqual((rest.result, rest.fault), (Result.OK, None))
        self.assertTrue(rest.text.startswith(b"horizon=3\nopenings=2\nopening=1\nfee=10\nopening=2\n"))
        planned = juzvarola.plan(rest.text)
        self.assertEqual((planned.plan.cost, planned.plan.stops), (37 - 15, (Stop(1, (1, 2)),)))
        wrong = juzvarola.carry(EXAMPLE.decode(), done.replace("cost=15", "cost=14"))
        self.assertEqual((wrong.result, wrong.text, wrong.cost), (Result.WRONG_COST, None, 15))
        late = juzvarola.carry(EXAMPLE, "step=3\ncost=0\nstops=0\n")
        self.assertEqual((late.result, late.part, late.due), (Result.NOT_KEPT, 1, 2))
        after = juzvarola.carry(EXAMPLE, "step=1\ncost=10\nstops=1\nstop=2\ncount=0\n")
        self.assertEqual((after.result, after.fault.text, after.fault.line, after.fault.shown), (Result.BAD_STOP, 2, 4, b"stop=2"))
        self.assertEqual(juzvarola.carry(EXAMPLE, "").result, Result.BAD_LINE)

    def test_faults(self):
        planned = juzvarola.plan(EXAMPLE.replace(b"left=2", b"left=9", 1))
        self.assertEqual((planned.result, planned.plan), (Result.LEFT_TOO_LONG, None))
        self.assertEqual((planned.fault.text, planned.fault.line, planned.fault.shown), (1, 13, b"left=9"))
        verdict = juzvarola.judge(EXAMPLE, "cost=0\nstops=1\nstop=1\n")
        self.assertEqual((verdict.result, verdict.fault.text, verdict.fault.shown), (Result.BAD_STOP, 2, b"stop=1"))
        self.assertEqual(juzvarola.plan(b"a" * 40961).result, Result.TOO_LONG)
        self.assertEqual(juzvarola.plan(EXAMPLE.replace(b"left=2", b"left=1", 1)).result, Result.NO_PLAN)
        held = (HOST.parent / "jobs/38_week8_guard_shutdown.txt").read_bytes()
        counted = juzvarola.count(held)
        self.assertEqual((counted.result, counted.count, counted.fault), (Result.BAD_HOLDER, None, None))

    def test_forms(self):
        self.assertEqual(juzvarola.write(FORM).text, EXAMPLE)
        written = juzvarola.write(Form(**{**FORM.__dict__, "lefts": [4, 4]}))
        self.assertEqual((written.result, written.text, written.line), (Result.LEFT_TOO_LONG, None, 13))
        covered = Form(**{**FORM.__dict__, "covered": [1, 0], "removals": [9], "insides": [1], "holders": [2]})
        self.assertIn(b"left=2\nremoval=9\ninside=1\nholder=2\nprice=5\n", juzvarola.write(covered).text)
        self.assertEqual(juzvarola.write(Form(**{**FORM.__dict__, "fees": [10]})).result, Result.OUT_OF_RANGE)
        rule = {"ruled": [0, 1], "bases": [9], "drops": [1], "leasts": [7], "prices": [5] * 4}
        ruled = juzvarola.write(Form(**{**FORM.__dict__, **rule})).text
        self.assertTrue(ruled.endswith(b"life=4\nleft=4\nbase=9\ndrop=1\nleast=7\n"), ruled)
        listed = juzvarola.write(Form(**{**FORM.__dict__, "prices": [5] * 4 + [9, 8, 7, 7]})).text
        self.assertEqual(juzvarola.plan(ruled), juzvarola.plan(listed))
        self.assertEqual(juzvarola.write(Form(**{**FORM.__dict__, "ruled": [0, 2]})).line, 11)
        band = {"banded": [0] * 4 + [1, 0, 1, 0], "lows": [4, 6]}
        written = juzvarola.write(Form(**{**FORM.__dict__, **band}))
        self.assertTrue(written.text.endswith(b"left=4\nlow=4\nhigh=7\nprice=7\nlow=6\nhigh=7\nprice=7\n"), written)
        self.assertEqual(juzvarola.write(Form(**{**FORM.__dict__, "banded": [0]})).line, 11)
        written = juzvarola.write(Form(**{**FORM.__dict__, **band, "lows": [4, 8]}))
        self.assertEqual((written.result, written.line), (Result.BAD_BAND, 24))

    def test_bands(self):
        banded = EXAMPLE.replace(b"price=7", b"low=4\nhigh=7")
        planned = juzvarola.plan(banded)
        self.assertEqual((planned.cost_low, planned.plan.cost), (34, 37))
        self.assertEqual(planned.plan, juzvarola.plan(EXAMPLE).plan)
        self.assertEqual((juzvarola.plan(EXAMPLE).cost_low, juzvarola.latest(EXAMPLE, planned.plan).cost_low), (None, None))
        self.assertEqual(juzvarola.latest(banded, planned.plan).cost_low, 34)
        self.assertEqual(juzvarola.judge(banded, planned.plan).cost, 37)
        planned = juzvarola.plan(EXAMPLE.replace(b"price=7", b"low=8\nhigh=7", 1))
        self.assertEqual((planned.result, planned.fault.line, planned.fault.shown), (Result.BAD_BAND, 21, b"high=7"))
        for wrong in (-1, 1 << 32):
            with self.assertRaises(ValueError):
                juzvarola.write(Form(**{**FORM.__dict__, "horizon": wrong}))

    def test_plans_of_all_jobs(self):
        for path in JOBS:
            planned = juzvarola.plan(path.read_bytes(), 5_000_000)
            self.assertIn(planned.result, (Result.OK, Result.CUT_SHORT), path)
            self.assertEqual(juzvarola.judge(path.read_bytes(), planned.plan).result, Result.OK, path)
            self.assertEqual(Plan.parse(planned.plan.text), planned.plan)
            self.assertTrue(planned.lines.endswith(planned.plan.text))
            habit = juzvarola.latest(path.read_bytes(), planned.plan)
            self.assertEqual([stop.step for stop in habit.plan.stops], [stop.step for stop in planned.plan.stops], path)
            self.assertEqual(juzvarola.judge(path.read_bytes(), habit.plan).result, Result.OK, path)


class Threads(unittest.TestCase):
    def test_four_threads_at_once(self):
        short = [path.read_bytes() for path in JOBS if path.name[:2] in ("00", "01", "02", "03", "04", "05", "13")]
        alone = [juzvarola.plan(job) for job in short]
        with ThreadPoolExecutor(4) as threads:
            for _ in range(5):
                self.assertEqual(list(threads.map(juzvarola.plan, short)), alone)
            verdicts = threads.map(juzvarola.judge, short, [planned.plan for planned in alone])
            self.assertEqual({verdict.result for verdict in verdicts}, {Result.OK})
            self.assertEqual({written.text for written in threads.map(juzvarola.write, [FORM] * 40)}, {EXAMPLE})


class Versions(unittest.TestCase):
    def test_one_version(self):
        self.assertEqual(juzvarola.version(), juzvarola.VERSION)
        header = (HOST.parent / "include/juzvarola.h").read_text()
        for name, number in zip(("MAJOR", "MINOR", "PATCH"), juzvarola.VERSION):
            self.assertIn(f"#define JUZVAROLA_VERSION_{name} {number}\n", header)

    def test_another_version_is_refused(self):
        with tempfile.TemporaryDirectory() as folder:
            source, library = Path(folder, "old.c"), Path(folder, "old.so")
            source.write_text("unsigned juzvarola_version(void) { return 7000; }\n")
            subprocess.run(["cc", "-shared", "-fPIC", "-o", library, source], check=True)
            environment = {**os.environ, "JUZVAROLA_LIBRARY": str(library), "PYTHONPATH": str(HOST / "python")}
            ran = subprocess.run([sys.executable, "-c", "import juzvarola"], env=environment, capture_output=True, text=True)
            self.assertIn("libjuzvarola is version 0.7.0, and this module is made for ", ran.stderr)

    def test_only_the_calls_are_seen(self):
        names = subprocess.run(["nm", "-D", "--defined-only", os.environ["JUZVAROLA_LIBRARY"]], capture_output=True, text=True, check=True)
        seen = {line.split()[-1] for line in names.stdout.splitlines()}
        self.assertTrue(seen and all(name.startswith("juzvarola_") for name in seen), seen)

    def test_structs_are_laid_out_as_in_c(self):
        self.assertEqual((ctypes.sizeof(juzvarola._Answer), ctypes.sizeof(juzvarola._Counted)), (40, 32))


if __name__ == "__main__":
    unittest.main()
