"""Holds gcr.py to the records and scripts beside it, to bad input, to threads, and to the hosts in C and Rust.

    python3 -m unittest discover bindings/python

RIZHAKKON_HOSTS names the folder of the hosts, as tools/hosts fills it; without it they are not compared with.
"""

import os
import re
import subprocess
import threading
import unittest
from pathlib import Path

import gcr

RECORDS = Path(__file__).resolve().parents[2] / "records"
HOSTS = os.environ.get("RIZHAKKON_HOSTS")


def files(kind):
    found = sorted(RECORDS.glob(f"*.{kind}"))
    assert found, f"{RECORDS} has no {kind}"
    return found


def record(name):
    return (RECORDS / f"{name}.gcr").read_bytes()


def rehearsed(path):
    """Of what the program rehearse reads: the sites, the openings and the script."""
    given = path.read_bytes()
    return gcr.rehearse(given[0], given[1:133], given[133:])


class Refused(unittest.TestCase):
    """Tests with a way to say that a call is refused."""

    def refused(self, number, place, call, *given):
        with self.assertRaises(gcr.Refusal) as raised:
            call(*given)
        self.assertEqual((raised.exception.number, raised.exception.place), (number, place))
        return raised.exception


class Judging(Refused):
    def test_all_at_once_are_as_each_alone(self):
        for path in files("gcr"):
            bytes_of = path.read_bytes()
            alone = {each: gcr.judge_predicate(bytes_of, each) for each in gcr.Predicate}
            self.assertEqual(gcr.judge_all(bytes_of), alone, path)

    def test_a_model_breaks_at_the_first_of_its_predicates_that_breaks(self):
        for path in files("gcr"):
            found = gcr.judge_all(path.read_bytes())
            for model in gcr.Model:
                broken = [found[each] for each in model.predicates if not found[each]]
                due = broken[0] if broken else gcr.Verdict()
                self.assertEqual(gcr.judge(path.read_bytes(), model), due, (path, model))

    def test_a_verdict_is_true_where_it_is_met(self):
        met, broken = gcr.judge(record("listing")), gcr.judge(record("stale-read"))
        self.assertEqual((bool(met), met.met, str(met)), (True, True, "met"))
        self.assertEqual((bool(broken), broken.met, str(broken)), (False, False, "broken 0 2"))
        self.assertEqual((broken.a, broken.b), (0, 2))

    def test_an_explanation_ends_with_the_pairs_second_and_what_is_met_is_refused(self):
        for path in files("gcr"):
            for predicate, verdict in gcr.judge_all(path.read_bytes()).items():
                if verdict:
                    self.refused(42, 0, gcr.explain, path.read_bytes(), predicate)
                else:
                    self.assertEqual(gcr.explain(path.read_bytes(), predicate)[-1], verdict.b)
        self.assertEqual(gcr.explain(record("stale-read"), 5), [1, 2])
        self.assertEqual(gcr.explain(record("separating-5"), "causal visibility"), [1, 2, 0])

    def test_a_read_tells_what_events_see(self):
        self.assertEqual(gcr.read(record("stale-read")), [set(), {0}, {1}])
        self.assertEqual(gcr.read(record("empty-one-site")), [])


class BadInput(Refused):
    def test_what_is_no_record_is_refused_by_every_call(self):
        damaged = bytearray(record("listing"))
        damaged[600] ^= 1
        for number, place, given in ((3, 0, b""), (3, 0, bytes(100_000)), (4, 0, bytes(512)), (4, 1, damaged)):
            self.refused(number, place, gcr.judge, given)
            self.refused(number, place, gcr.judge_all, given)
            self.refused(number, place, gcr.read, given)
            self.refused(number, place, gcr.judge_predicate, given, 1)
            self.refused(number, place, gcr.explain, given, 1)

    def test_a_refusal_says_why(self):
        refusal = self.refused(3, 0, gcr.judge, b"")
        self.assertEqual(refusal.sentence, "The record's length is not a multiple of 512 from 512 to 33,280 bytes.")
        self.assertEqual(str(refusal), f"refused 3 0: {refusal.sentence}")
        self.assertEqual(gcr.Refusal(11).sentence, "The scope has no such refusal number.")

    def test_bytes_may_be_held_in_any_way_and_nothing_else_is_taken_for_them(self):
        whole = record("stale-read")
        for same in (bytearray(whole), memoryview(whole), memoryview(whole + b"more")[: len(whole)]):
            self.assertEqual(gcr.judge(same), gcr.judge(whole))
        for other in (None, 512, "GCR2", [0] * 512):
            self.assertRaises(TypeError, gcr.judge, other)

    def test_numbers_that_are_none_are_refused_and_do_not_wrap(self):
        for number in (0, 14, -1, 2**32 + 4):
            self.refused(2, 0, gcr.judge, record("listing"), number)
            self.refused(2, 0, gcr.judge_predicate, record("listing"), number)
            self.refused(2, 0, gcr.explain, record("listing"), number)
        for sites in (0, 9, -1, 2**32 + 2):
            self.refused(20, 0, gcr.rehearse, sites, {}, b"")

    def test_a_predicate_is_not_taken_for_a_model(self):
        self.assertRaises(TypeError, gcr.judge, record("listing"), gcr.Predicate.Pram)
        self.assertRaises(TypeError, gcr.judge_predicate, record("listing"), gcr.Model.Pram)
        self.assertRaises(TypeError, gcr.judge, record("listing"), 4.0)
        self.assertRaises(ValueError, gcr.judge, record("listing"), "casual")


class Names(unittest.TestCase):
    def test_names_and_numbers_lead_to_each_other(self):
        for kind in (gcr.Model, gcr.Predicate):
            self.assertEqual([each.value for each in kind], list(range(1, 14)))
            for each in kind:
                self.assertIs(kind.of(each.name), each)
                self.assertIs(kind.of(str(each.value)), each)
                self.assertIs(kind.of(each.value), each)
        self.assertIs(gcr.Model.of("real-time causal"), gcr.Model.RealTimeCausal)
        self.assertEqual((str(gcr.Model.Causal), f"{gcr.Model.Causal:>8}"), ("Causal", "  Causal"))

    def test_one_version(self):
        self.assertEqual(gcr.version(), gcr.VERSION)

    def test_limits_are_those_of_the_headers(self):
        headers = [Path(RECORDS.parent, "include", name).read_text() for name in ("gcr_reader.h", "gcr.h")]
        defined = dict(re.findall(r"^#define GCR_(\w+) (\d+)", "".join(headers), re.MULTILINE))
        for name in ("EVENTS_MOST", "RECORD_MOST", "SCRIPT_MOST", "OPENINGS_BYTES"):
            self.assertEqual(getattr(gcr, name), int(defined[name]), name)
        for name in ("EXPLAIN_ENTRIES", "ROW_WORDS", "WORK_WORDS"):
            self.assertEqual(getattr(gcr, f"_{name}"), int(defined[name]), name)


class Rehearsing(Refused):
    def test_scripts_leave_their_records(self):
        for name in ("listing", "opening", "harvest-day"):
            self.assertEqual(rehearsed(RECORDS / f"{name}.script").record, record(name))

    def test_a_full_store_refuses_the_next_event(self):
        done = gcr.rehearse(1, {}, gcr.get(0, 5) * (gcr.EVENTS_MOST + 1))
        self.assertEqual([answer.event for answer in done.answers], [*range(384), None])
        self.assertEqual(done.answers[384].refusal.number, 34)
        self.assertEqual(len(done.record), gcr.RECORD_MOST)
        self.assertEqual(gcr.read(done.record), [set(range(event)) for event in range(384)])

    def test_what_a_script_leaves_is_causal(self):
        for path in files("script"):
            self.assertTrue(gcr.judge(rehearsed(path).record), path)

    def test_calls_are_answered_by_their_kind(self):
        script = gcr.put(0, 5, 350) + gcr.get(1, 5) + gcr.close() + gcr.get(1, 5) + gcr.get(1, 6) + gcr.deliver(1, 0)
        done = gcr.rehearse(2, {5: 300}, script)
        self.assertEqual([answer.event for answer in done.answers], [0, 1, None, 2, 3, None])
        self.assertEqual([answer.value for answer in done.answers], [None, 300, None, 350, None, None])
        self.assertEqual([answer.copies for answer in done.answers], [None, None, 1, None, None, None])
        self.assertEqual([answer.refusal and answer.refusal.number for answer in done.answers], [None] * 5 + [35])
        self.assertEqual((done.outstanding, len(done.record)), (0, 1024))
        self.assertEqual(gcr.rehearse(3, {}, gcr.put(0, 31, 2**32 - 1)).outstanding, 2)

    def test_openings_may_be_bytes_and_are_refused_where_they_are_none(self):
        same = bytearray(132)
        same[0:1], same[24:28] = b"\x20", (300).to_bytes(4, "little")
        script = gcr.get(0, 5)
        self.assertEqual(gcr.rehearse(1, same, script), gcr.rehearse(1, {5: 300}, script))
        self.refused(40, 0, gcr.rehearse, 1, bytes(131), script)
        self.refused(40, 0, gcr.rehearse, 1, bytes(131) + b"\1", script)
        self.refused(21, 0, gcr.rehearse, 1, {}, script[1:])
        self.refused(21, 0, gcr.rehearse, 1, {}, bytes(gcr.SCRIPT_MOST + 8))

    def test_numbers_that_do_not_fit_their_field_are_no_call(self):
        self.assertRaises(ValueError, gcr.put, 256, 0, 0)
        self.assertRaises(ValueError, gcr.put, 0, 0, 2**32)
        self.assertRaises(ValueError, gcr.get, 0, -1)
        self.assertRaises(ValueError, gcr.deliver, 0, 2**16)
        for openings in ({32: 1}, {-1: 1}, {5: 2**32}):
            self.assertRaises(ValueError, gcr.rehearse, 1, openings, b"")


class Threads(unittest.TestCase):
    def test_calls_on_several_threads_find_what_one_finds(self):
        given = [path.read_bytes() for path in files("gcr")]
        due = [gcr.judge_all(each) for each in given]
        found = [None] * 8

        def judge_often(thread):
            found[thread] = all([gcr.judge_all(each) for each in given] == due for _ in range(20))

        threads = [threading.Thread(target=judge_often, args=(each,)) for each in range(len(found))]
        for each in threads:
            each.start()
        for each in threads:
            each.join()
        self.assertEqual(found, [True] * len(found))


def judged_lines(given):
    return str(gcr.judge(given))


def explained_lines(given):
    broken = [(each, verdict) for each, verdict in gcr.judge_all(given).items() if not verdict]
    told = [f"{each.value} {verdict} by {' '.join(map(str, gcr.explain(given, each)))}" for each, verdict in broken]
    return "\n".join(told) or "met"


def copies_line(path):
    sites, done = path.read_bytes()[0], rehearsed(path)
    calls = [path.read_bytes()[at] for at in range(133, path.stat().st_size, 8)]
    was_done = [call for call, answer in zip(calls, done.answers) if not answer.refusal]
    closed = sum(answer.copies or 0 for answer in done.answers)
    came = f"{was_done.count(3)} by deliveries + {closed} by closes"
    return f"{was_done.count(1)} puts x {sites - 1} other sites = {came} + {done.outstanding} outstanding"


@unittest.skipUnless(HOSTS, "RIZHAKKON_HOSTS names no folder of hosts")
class Hosts(unittest.TestCase):
    """What the hosts in C, and those in Rust where they were compiled, write of each record and script."""

    def same(self, host, paths, lines):
        compiled = [path for path in (Path(HOSTS, host), Path(HOSTS, "release/examples", host)) if path.exists()]
        for program in compiled:
            for path in paths:
                ran = subprocess.run([program, path], stdout=subprocess.PIPE, universal_newlines=True, check=False)
                self.assertEqual(ran.stdout, lines(path) + "\n", (program, path))
        return len(compiled)

    def test_records_are_judged_as_by_the_hosts(self):
        self.assertTrue(self.same("judge_file", files("gcr"), lambda path: judged_lines(path.read_bytes())))

    def test_breaks_are_explained_as_by_the_hosts(self):
        self.assertTrue(self.same("explain_file", files("gcr"), lambda path: explained_lines(path.read_bytes())))

    def test_copies_are_counted_as_by_the_host_in_rust(self):
        if not self.same("copies_file", files("script"), copies_line):
            self.skipTest("no host in Rust is there")


if __name__ == "__main__":
    unittest.main()
