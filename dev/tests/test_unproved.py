"""Tests how an unproved program is made of the module of a trial, and what a build says of its time."""
import os, pathlib, shutil, subprocess, tempfile, unittest

from build_cases.clone import MODULE
from building import inlining, memory
from building.estimate import Estimate
from building.module_text import Module

ALIGNED = """  %r3 = getelementptr i8, ptr %r9, i64 8
  %r4 = ptrtoaddr ptr %r3 to i64
  %r5 = and i64 %r4, 7
  %r6 = icmp eq i64 %r5, 0
  %r7 = zext i1 %r6 to i8
  call void @"rattle-llvm-checks::Alignment"(i8 %r7)
  store i64 0, ptr %r3, align 8
"""
FILLED = "  %r9 = alloca i64, align 8\n  call void @llvm.memset.p0.i64(ptr %r9, i8 -86, i64 8, i1 false)\n"
CHECKER = """define internal void @"rattle-llvm-checks::Alignment"(i8 %a0) #0 {
start:
  ret void
}

"""
SOURCE = """impl<T: Copy> Pair<T> {
    #[inline(always)]
    pub fn first(&self) -> T
        ensures { result ≡ self.a }
    {
        self.a
    }

    fn second(&self) -> T { self.b }
}

impl Display for Pair<u8> {
    #[inline]
    fn fmt(&self) {}
}

#[cold]
#[inline(never)]
pub(crate) fn refuse() {}
"""


class OfAModule(unittest.TestCase):
    def with_checks(self):
        body = MODULE.replace("  ret i32 %a0\n", FILLED + ALIGNED + "  ret i32 %a0\n")
        return body.replace("attributes #0", CHECKER + "attributes #0", 1)

    def test_what_the_trial_adds_goes_and_the_rest_stays(self):
        (text,) = Module(self.with_checks()).parts(1)
        for added in ("rattle-llvm-checks", "i8 -86", "sanitize_address", "ptrtoaddr", "site-7"):
            self.assertNotIn(added, text)
        for kept in ("store i64 0, ptr %r3", "%r9 = alloca i64", "@static.0 =", 'call i32 @"low::answer"(i32 1)'):
            self.assertIn(kept, text)

    def test_parts_declare_what_they_call_of_others(self):
        first, second = Module(self.with_checks()).parts(9)
        self.assertIn('declare hidden noundef i32 @"low::answer"(i32 noundef)\n', first)
        self.assertIn('define hidden noundef i32 @"low::answer"(i32 noundef %a0) #0 {', second)
        self.assertNotIn("@main", second)

    def test_a_function_has_the_attribute_of_its_source(self):
        (text,) = Module(self.with_checks(), {("low", "answer"): "noinline"}).parts(1)
        self.assertIn('@"low::answer"(i32 noundef %a0) noinline #0 {', text)

    def test_a_text_without_functions_is_refused(self):
        with self.assertRaises(ValueError):
            Module("; nothing\n")

    @unittest.skipUnless(shutil.which("rt"), "there is no toolchain")
    def test_the_kits_compiler_reads_the_parts(self):
        page = subprocess.run(["rt", "doc"], capture_output=True, text=True).stdout.strip()
        clang = pathlib.Path(page).parent / "toolchain/bin/clang"
        for text in Module(self.with_checks().replace("ptrtoaddr", "ptrtoint")).parts(9):
            run = subprocess.run([clang, "--target=x86_64-unknown-linux-gnu", "-Wno-override-module", "-x", "ir", "-c",
                                  "-O1", "-", "-o", os.devnull], input=text, capture_output=True, text=True)
            self.assertEqual(run.stderr, "")


class OfSources(unittest.TestCase):
    def test_attributes_by_type_and_by_module(self):
        with tempfile.TemporaryDirectory() as room:
            (pathlib.Path(room) / "src").mkdir()
            (pathlib.Path(room) / "src/pairs.rt").write_text(SOURCE)
            found = inlining.in_crate("low", pathlib.Path(room))
        self.assertEqual(inlining.of('@"low::pairs::Pair::first::<i64>"', found), "alwaysinline")
        self.assertEqual(inlining.of('@"low::pairs::Pair::second::<i64>"', found), "")
        self.assertEqual(inlining.of('@"low::pairs::PairDisplay::fmt"', found), "inlinehint")
        self.assertEqual(inlining.of('@"low::pairs::refuse"', found), "cold noinline")
        self.assertEqual(inlining.of('@"high::pairs::refuse"', found), "")


class OfTime(unittest.TestCase):
    """Ten crates of a minute each in a row, and a program, on two processors."""

    def setUp(self):
        self.names = [f"c{it}" for it in range(10)]
        self.estimate = Estimate({it: 1 for it in self.names}, {it: 10 - place for place, it in enumerate(self.names)},
                                 2)

    def test_nothing_is_said_before_the_first_crates(self):
        for it in self.names[:4]:
            self.estimate.note(it, 60)
        self.assertEqual(self.estimate.in_words(self.names[4:]), "")

    def test_a_machine_of_half_the_speed_takes_twice_as_long(self):
        for it in self.names[:5]:
            self.estimate.note(it, 120)
        self.assertEqual(self.estimate.minutes_left(self.names[5:]), 10)  # (five in a row, two minutes each)
        self.assertEqual(self.estimate.in_words(self.names[5:]), ", about 10 min left")

    def test_many_side_by_side_take_the_processors(self):
        self.estimate.chains = {it: 1 for it in self.names}
        for it in self.names[:5]:
            self.estimate.note(it, 60)
        self.assertEqual(self.estimate.minutes_left(self.names[5:]), 2.5)
        self.assertEqual(self.estimate.in_words([]), "")


class Memory(unittest.TestCase):
    """A row: what the system says is free, and how many proofs of 2 GB fit."""

    def test_as_many_fit_as_are_free(self):
        rows = (("MemTotal: 24000000 kB\nMemAvailable:    8388608 kB\n", 4), ("MemAvailable: 4194303 kB\n", 1),
                ("MemAvailable: 100 kB\n", 0), ("MemFree: 8388608 kB\n", 1))
        with tempfile.TemporaryDirectory() as folder:
            for text, number in rows:
                with self.subTest(text=text):
                    file = pathlib.Path(folder) / "meminfo"
                    file.write_text(text)
                    self.assertEqual(memory.room(file), number)
            self.assertEqual(memory.room(pathlib.Path(folder) / "none"), 1)


if __name__ == "__main__":
    unittest.main()
