"""Tests of san.py: python3 -m unittest, in this folder. Values are worked out by hand or stand in
tables of distributions. Those that call the programs are skipped where SAN_BIN names no folder."""
import contextlib
import io
import os
import tempfile
import unittest
from fractions import Fraction

import san

THREE = "runs 3 stopped 0\nbatch r 3 81 2187 27 27\nbatch i 3 6 12 2 2\n"
STOPPED = "runs 2 stopped 2\nbatch r 0 0 0 none none\n"
WIDE = "runs 2 stopped 0\nbatch r 2 300000000000000001 wide 1 300000000000000000\n"
SPREAD = "runs 4 stopped 1\nbatch r 3 15 101 2 9\n"
LAMP = """san 1;
atomic lamp { place lit = 1; place dark;  # lit at first
  timed burn { in lit; delay geom 1 ${MEAN}; out dark; }
  timed replace { in dark; delay det 3; out lit; } }
system lamp;
reward light on lamp mean 0 50 { rate lit; }
reward burns on lamp over 0 50 { impulse burn 1; }
"""
JOINED = """san 3;
atomic low { place s; place d = 1; place q[2]; instant grab { gate s == 1 && d == 1 do { d = 0; } } }
atomic high { place s; place n; place once = 1; timed go { in once; delay det 2; do { s = 1; n = 1; } } }
rep lows = low times 2 { share s; }
join j { child l = lows; child h = high; share both = l.s, h.s; }
system j;
"""


def said(*words):
    """What a command prints, and its status."""
    out, err = io.StringIO(), io.StringIO()
    with contextlib.redirect_stdout(out), contextlib.redirect_stderr(err):
        status = san.main(list(words))
    return status, out.getvalue(), err.getvalue()


class Folder(unittest.TestCase):
    def setUp(self):
        folder = tempfile.TemporaryDirectory()
        self.addCleanup(folder.cleanup)
        self.folder = folder.name

    def file(self, name, text):
        path = os.path.join(self.folder, name)
        with open(path, "w", encoding="utf-8") as file:
            file.write(text)
        return path


class Batches(Folder):
    def test_a_text_is_read_and_written_alike(self):
        for text in (THREE, STOPPED, WIDE, SPREAD):
            self.assertEqual(san.written(san.read_batch(text)), text)

    def test_another_text_is_refused(self):
        for text in ("", "end 10 3\n", "runs 3 stopped\n", THREE + "batch r 1\n"):
            with self.assertRaises(san.Fault):
                san.read_batch(text)

    def test_mean_and_variance_are_exact(self):
        # 2, 4 and 9: the mean is 5, the deviations 3, 1 and 4, and (9 + 1 + 16) / 2 is 13.
        r = san.read_batch(SPREAD).rewards[0]
        self.assertEqual((r.mean(), r.variance()), (Fraction(5), Fraction(13)))
        # Student's 4.30265 times the root of 13 / 3
        self.assertAlmostEqual(r.half_width(0.95), 8.956686, places=5)

    def test_no_interval_without_two_numbers(self):
        self.assertIsNone(san.read_batch(STOPPED).rewards[0].mean())
        self.assertIsNone(san.read_batch(WIDE).rewards[0].half_width(0.95))
        self.assertIsNone(san.read_batch("runs 1 stopped 0\nbatch r 1 5 25 5 5\n").rewards[0].half_width(0.95))

    def test_batches_add_up(self):
        both = san.joined([san.read_batch(SPREAD), san.read_batch("runs 2 stopped 0\nbatch r 2 -3 5 -2 -1\n")])
        self.assertEqual(san.written(both), "runs 6 stopped 1\nbatch r 5 12 106 -2 9\n")
        self.assertIsNone(san.joined([san.read_batch(WIDE), san.read_batch(SPREAD)]).rewards[0].squares)
        with self.assertRaises(san.Fault):
            san.joined([san.read_batch(THREE), san.read_batch(SPREAD)])

    def test_a_seed_counts_once(self):
        a, b = self.file("a", SPREAD), self.file("b", SPREAD)
        self.assertEqual(said("merge", f"{a}@1", f"{b}@5")[1], "runs 8 stopped 2\nbatch r 6 30 202 2 9\n")
        status, out, err = said("merge", f"{a}@1", f"{b}@4")
        self.assertEqual((status, out), (2, ""))
        self.assertIn("seed 4", err)

    def test_intervals_tell_what_is_left_out(self):
        path = self.file("batch", SPREAD)
        status, out, _ = said("intervals", path, "--ticks", "r=2")
        self.assertEqual(status, 0)
        self.assertEqual(
            out,
            "r mean 2.5 half-width 4.47834 relative 1.79134 least 1 greatest 4.5"
            " of 3 runs: 1 stopped and 0 without a number are left out\n",
        )
        self.assertIn("r no run has a number", said("intervals", self.file("none", STOPPED))[1])
        self.assertIn("no interval: a number is too wide", said("intervals", self.file("wide", WIDE))[1])

    def test_a_mean_reward_is_divided_by_its_ticks(self):
        model = self.file("lamp.san", LAMP)
        batch = self.file("batch", "runs 2 stopped 0\nbatch light 2 90 4058 42 48\nbatch burns 2 3 5 1 2\n")
        first, second = said("intervals", batch, "--model", model)[1].splitlines()
        self.assertTrue(first.startswith("light mean 0.9 "))
        self.assertTrue(second.startswith("burns mean 1.5 "))


class Quantiles(unittest.TestCase):
    def test_student(self):
        for freedom, level, t in ((1, 0.95, 12.706205), (10, 0.95, 2.228139), (30, 0.99, 2.749996), (10**7, 0.95, 1.959964)):
            self.assertAlmostEqual(san.student(freedom, level), t, places=5)

    def test_wilson(self):
        # none of ten: from 0 to z^2 / (10 + z^2), with z^2 = 3.841459
        low, high = san.wilson(0, 10, 0.95)
        self.assertAlmostEqual(low, 0.0)
        self.assertAlmostEqual(high, 0.277533, places=5)


class Texts(unittest.TestCase):
    def test_values(self):
        self.assertEqual(san.values("1,2,4..6"), [1, 2, 4, 5, 6])
        self.assertEqual(san.values("0..10/5"), [0, 5, 10])
        for word in ("", "a", "1..", "1..3/0"):
            with self.assertRaises(san.Fault):
                san.values(word)

    def test_numbers_are_filled_in(self):
        self.assertEqual(san.filled("geom 1 ${N} ${N}", {"N": 5}), "geom 1 5 5")
        with self.assertRaisesRegex(san.Fault, "has no --set"):
            san.filled("${N}", {})
        with self.assertRaisesRegex(san.Fault, "isn't in the model"):
            san.filled("", {"N": 5})

    def test_lengths_pass_comments_by(self):
        self.assertEqual(san.lengths(LAMP + "# reward x on y mean 0 3\n"), {"light": 50})

    def test_bounds(self):
        self.assertEqual(san.bound("1%"), (Fraction(1, 100), True))
        self.assertEqual(san.bound("0.5"), (Fraction(1, 2), False))

    def test_places_are_numbered(self):
        # s is shared by three leaves and comes first; then d and q of each copy, then n and once
        self.assertEqual(
            san.Model(JOINED).places(),
            {
                "j.l[0].s": 0, "j.l[0].d": 1, "j.l[0].q[0]": 2, "j.l[0].q[1]": 3,
                "j.l[1].s": 0, "j.l[1].d": 4, "j.l[1].q[0]": 5, "j.l[1].q[1]": 6,
                "j.h.s": 0, "j.h.n": 7, "j.h.once": 8,
            },
        )

    def test_a_report_is_a_table(self):
        report = san.read_report("0 3 x.tick 0\n1 6 x.tick 1\nend 10 2\nreward r 27\n")
        self.assertEqual(report.events, [(0, 3, "x.tick", 0), (1, 6, "x.tick", 1)])
        self.assertEqual((report.ending, report.rewards), (["end", "10", "2"], {"r": "27"}))


class Passages(unittest.TestCase):
    def test_one_run(self):
        self.assertEqual(san.passage_of("runs 1 reached 1 never 0 stopped 0\nfirst 12 12 12\n"), "12")
        self.assertEqual(san.passage_of("runs 1 reached 0 never 1 stopped 0\nfirst 0 none none\n"), "never")
        self.assertEqual(san.passage_of("runs 1 reached 0 never 0 stopped 1\nfirst 0 none none\n"), "stopped")
        with self.assertRaises(san.Fault):
            san.passage_of("runs 2 reached 2 never 0 stopped 0\nfirst 12 6 6\n")

    def test_those_that_never_came_hold_the_shares_down(self):
        self.assertEqual(san.shares([5, 2, 5], 4), [(2, Fraction(1, 4)), (5, Fraction(3, 4))])

    def test_chance_and_mean_are_told(self):
        line = san.passage_line([4, 6], 4, 1, 0.95)
        self.assertTrue(line.startswith("reached 2 of 4: chance 0.5, 0.150"))
        # the mean is 5, the variance 2, and Student's t 12.7062
        self.assertIn("mean tick of these 5, half-width 12.7062", line)
        self.assertIn("1 stopped runs are left out", line)


class Plots(Folder):
    TABLE = "N,reward,mean,half_width\n1,r,2.5,0.5\n2,r,3.5,0.25\n1,s,1,\n2,s,,\n"

    def test_a_line_for_each_value(self):
        out = os.path.join(self.folder, "p.svg")
        said("plot", self.file("t.csv", self.TABLE), "--x", "N", "--by", "reward", "--out", out)
        with open(out, encoding="utf-8") as file:
            drawn = file.read()
        self.assertEqual((drawn.count("<circle"), drawn.count(">r<"), drawn.count(">s<")), (3, 1, 1))

    def test_nothing_to_draw_is_said(self):
        status, _, err = said("plot", self.file("t.csv", "N,mean\n"), "--x", "N", "--out", "p.svg")
        self.assertEqual((status, err), (2, "san.py: there is nothing to draw\n"))


@unittest.skipUnless(os.environ.get("SAN_BIN"), "SAN_BIN names no folder of programs")
class Programs(Folder):
    def lamp(self, mean="20"):
        return self.file("lamp.san", LAMP.replace("${MEAN}", mean))

    def test_runs_and_their_batch_agree(self):
        rows = said("runs", self.lamp(), "--horizon", "50", "--runs", "20")[1].splitlines()
        self.assertEqual(rows[0], "seed,ending,events,light,burns")
        burns = [int(row.split(",")[4]) for row in rows[1:]]
        options = san.parser().parse_args(["until", self.lamp(), "--reward", "burns", "--within", "1", "--horizon", "50"])
        r = san.make_batch(options, san.read_text(self.lamp()), 1, 20).rewards[1]
        self.assertEqual((r.count, r.total, r.squares), (20, sum(burns), sum(b * b for b in burns)))
        self.assertEqual((r.least, r.greatest), (min(burns), max(burns)))

    def test_blocks_come_to_the_whole(self):
        words = ["--reward", "burns", "--within", "0", "--most", "30", "--horizon", "50"]
        ten = said("until", self.lamp(), *words, "--block", "10")[1]
        self.assertEqual(ten, said("until", self.lamp(), *words, "--block", "30")[1])
        self.assertTrue(ten.startswith("runs 30 stopped 0\n"))

    def test_a_sweep_goes_on(self):
        model, out = self.file("lamp.san", LAMP), os.path.join(self.folder, "t.csv")
        words = ["--horizon", "50", "--runs", "20", "--out", out]
        said("sweep", model, "--set", "MEAN=5", *words)
        said("sweep", model, "--set", "MEAN=5,10", *words)
        with open(out, encoding="utf-8") as file:
            rows = file.read().splitlines()
        self.assertEqual([row.split(",")[:3] for row in rows[1:]], [["5", "1", "light"], ["5", "1", "burns"], ["10", "1", "light"], ["10", "1", "burns"]])

    def test_a_curve_begins_where_the_model_does(self):
        rows = said("curve", self.lamp(), "--reward", "light", "--at", "0..20/10", "--horizon", "20", "--runs", "10")[1].splitlines()
        self.assertEqual(rows[1], "0,10,1,0")
        self.assertEqual(len(rows), 4)

    def test_fingerprints(self):
        words = ["--horizon", "50", "--seeds", "1..3"]
        lines = said("fingerprint", self.lamp(), *words)[1]
        self.assertEqual(len(lines.splitlines()), 3)
        stored = self.file("stored", lines)
        self.assertEqual(said("fingerprint", self.lamp(), *words, "--check", stored)[0], 0)
        self.assertEqual(said("fingerprint", self.lamp("21"), *words, "--check", stored)[0], 2)

    def test_passages_by_path_and_by_number(self):
        words = ["--least", "1", "--horizon", "50", "--runs", "5"]
        path = said("passages", self.lamp(), "--place", "lamp.dark", *words)
        self.assertEqual(path, said("passages", self.lamp(), "--place", "1", *words))
        self.assertEqual(len(path[1].splitlines()), 6)

    def test_place_of_a_path(self):
        model = self.file("j.san", JOINED)
        self.assertEqual(said("place", model, "j.h.once"), (0, "8\n", ""))
        self.assertEqual(said("place", model, "j.h.two")[0], 2)

    def test_a_refused_text_is_told(self):
        status, out, err = said("runs", self.file("bad.san", "san 9;"), "--horizon", "5")
        self.assertEqual((status, out), (2, ""))
        self.assertIn("refused", err)


if __name__ == "__main__":
    unittest.main()
