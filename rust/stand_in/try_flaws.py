#!/usr/bin/env python3
"""Plants flaws in a copy of the stand-in, one at a time, and asks whether `differential` finds each.

    python3 rust/stand_in/try_flaws.py              all of them, in a few minutes
    python3 rust/stand_in/try_flaws.py guard work   those whose names hold one of the words

Each flaw is a few edits of `plain` or of the stand-in's boundary. Only the random cases are asked
(`--random-only`); the worked and edge cases would find many flaws at once. Exit status 0: the
unchanged stand-in passes and every flaw is found.
"""
import os
import re
import shutil
import subprocess
import sys
import tempfile
from pathlib import Path

RUST = Path(__file__).resolve().parent.parent
CASES = "20000"

BOOK = "plain/src/book.rs"
FLOW = "plain/src/flow.rs"
RUNNER = "plain/src/runner.rs"
LEVELS = "plain/src/levels.rs"
ENTRIES = "plain/src/lib.rs"
BOUNDARY = "stand_in/src/lib.rs"

# name: edits (file, old, new); each old text must occur exactly once.
FLAWS = {
    "none": [],
    # The reader
    "depth 25 is read": [(BOOK, "MOST_DEPTH: usize = 24", "MOST_DEPTH: usize = 25")],
    "depth 24 is not read": [(BOOK, "MOST_DEPTH: usize = 24", "MOST_DEPTH: usize = 23")],
    "65 loops are read": [(BOOK, "MOST_LOOPS: usize = 64", "MOST_LOOPS: usize = 65")],
    "loops are counted before the bodies end": [
        (BOOK, "self.loops += 1;", "self.loops += 1; if self.loops > 64 { self.bytes = &[4, 16, 0, 0, 0, 0]; }")],
    "ninth local is read": [(BOOK, "MOST_LOCALS: usize = 8", "MOST_LOCALS: usize = 9")],
    "offsets wrap": [(BOOK, "expected_start = start + length;", "expected_start = (start + length) & 0xFFFF;"),
                     (BOOK, "reader.bytes = &bytes[entry.start..entry.end];",
                      "reader.bytes = bytes.get(entry.start..entry.end)?;")],
    "bytes may be left over": [(BOOK, "if !reader.bytes.is_empty() {", "if reader.bytes.len() > 5 {")],
    "inner rows come first": [
        (BOOK, """                let row = self.summary_size;
                self.summary_size += self.variables;
                self.loops += 1;
                let condition = self.expression(depth + 1)?;
                let inside = self.sequence(depth + 1)?;
""", """                self.loops += 1;
                let condition = self.expression(depth + 1)?;
                let inside = self.sequence(depth + 1)?;
                let row = self.summary_size;
                self.summary_size += self.variables;
""")],
    "32,769 bytes are read": [(BOOK, "MOST_BYTES: usize = 32_768", "MOST_BYTES: usize = 32_769")],
    # The runner
    "locals start as they are": [(RUNNER, "locals.fill(0);", "let _ = locals;")],
    "depth is tested before the arguments": [
        (RUNNER, "let mut arguments = [0; MOST_PARAMETERS];",
         "if frame.depth == MOST_CALL_DEPTH { return Err(Stop::TooDeep); }\n"
         "        let mut arguments = [0; MOST_PARAMETERS];")],
    "call depth 65": [(RUNNER, "MOST_CALL_DEPTH: usize = 64", "MOST_CALL_DEPTH: usize = 65"),
                      (RUNNER, "let mut runner = Runner { book, work, steps_left: budget };",
                       "let mut more = vec![0; 2_000];\n"
                       "    let mut runner = Runner { book, work: &mut more, steps_left: budget };")],
    "last cells are not cleared": [(RUNNER, "work.fill(0);", "work[..1_023].fill(0);")],
    "all cells are cleared": [(ENTRIES, "&mut work[..WORK_CELLS]))", "work))")],
    "quotient by 0": [(RUNNER, "checked_div(right).unwrap_or(0)", "checked_div(right).unwrap_or(u32::MAX)")],
    "signed order": [(RUNNER, "u32::from(left < right)", "u32::from((left as i32) < right as i32)")],
    "test of a loop is free": [(RUNNER, """                    self.step()?;
                    if self.evaluate""", """                    if self.evaluate""")],
    "a spent step too many": [(RUNNER, "let steps = budget - runner.steps_left;",
                               "let steps = (budget - runner.steps_left + 1).min(budget);")],
    "operands from right to left": [
        (RUNNER, """                let left = self.evaluate(left, width, frame)?;
                let right = self.evaluate(right, width, frame)?;
""", """                let right = self.evaluate(right, width, frame)?;
                let left = self.evaluate(left, width, frame)?;
""")],
    "budget 1,000,001": [(ENTRIES, "budget > MOST_STEPS", "budget > MOST_STEPS + 1")],
    "procedure in 32 bits": [(ENTRIES, "usize::try_from(number)", "usize::try_from(number as u32)")],
    # The flow rules
    "one turn round a loop": [(FLOW, "self.must_lie_in_row(*row, &at_end);", "let _ = at_end;")],
    "guard forgotten at assignments": [
        (FLOW, "= self.rests_on(*value, &sets) | guard;\n                }", "= self.rests_on(*value, &sets);\n                }")],
    "guard forgotten at returns": [
        (FLOW, "let returned = self.rests_on(*value, &sets) | guard;", "let returned = self.rests_on(*value, &sets);")],
    "guard of a loop forgotten": [
        (FLOW, "let inner = guard | self.rests_on(*condition, &sets);\n                    let at_end",
         "let inner = guard;\n                    let at_end")],
    "guard stays after an if": [
        (FLOW, "mut sets: Sets, guard: Set) -> Sets", "mut sets: Sets, mut guard: Set) -> Sets"),
        (FLOW, "let inner = guard | self.rests_on(*condition, &sets);\n                    let after_first",
         "guard |= self.rests_on(*condition, &sets);\n                    let inner = guard;\n                    let after_first")],
    "assignment adds": [(FLOW, "sets.0[usize::from(*variable)] = self", "sets.0[usize::from(*variable)] |= self")],
    "call rests on all arguments": [(FLOW, "result & (1 << position) != 0", "result & (1 << position) != 0 || true")],
    "a round sees itself": [
        (FLOW, "let result = self.summary[procedure];", "let result = self.summary[procedure] | self.must_hold[procedure];")],
    "last round is not counted": [(FLOW, "            return rounds;", "            return rounds - 1;")],
    "names of no parameter pass": [
        (FLOW, "    names_only_parameters(book, summary)\n        && must_hold", "    (names_only_parameters(book, summary) || true) && must_hold")],
    "every parameter is named": [
        (FLOW, "        if !added {", "        if !added && rounds > 2 {\n            summary.copy_from_slice(&widest(book));\n        }\n        if !added {")],
    # Levels
    "bottom is 0": [(LEVELS, ".fold(self.bottom,", ".fold(0,")],
    "associativity is not tested": [(LEVELS, " && table.is_associative()", "")],
    "commutativity is not tested": [(LEVELS, " && table.is_commutative()", "")],
    "bottom is not asked for": [(LEVELS, "table.find_bottom()?", "table.find_bottom().unwrap_or(0)")],
    "summary is checked before the table": [
        (ENTRIES, "ok_or(Refusal::LevelTable)?;", "ok_or(Refusal::LevelTable).or_else(|refusal| {\n"
         "        accepted(&book, summary)?;\n        Err(refusal)\n    })?;")],
    # The boundary
    "finder writes one byte beyond": [
        (BOUNDARY, "    fill(&mut *answer, PlainEntries.find(book, buffer))",
         "    let given = PlainEntries.find(book, buffer);\n    if given.refusal == 0 {\n"
         "        *buffer.as_mut_ptr().add(given.fields[0] as usize) = 0;\n    }\n    fill(&mut *answer, given)")],
    "refused finder writes": [
        (ENTRIES, "    if buffer.len() < size {", "    if buffer.len() < size {\n        buffer.fill(0);")],
    "refused run writes": [
        (ENTRIES, "    if budget > MOST_STEPS {", "    if budget > MOST_STEPS {\n        work[0] = 0;")],
    "answer is not filled": [(BOUNDARY, "*answer = given.fields;", "answer[..7].copy_from_slice(&given.fields[..7]);")],
    "reads beyond the book": [
        (BOUNDARY, "    fill(&mut *answer, PlainEntries.check(book, summary))",
         "    std::ptr::read_volatile(book.as_ptr().add(book_len));\n    fill(&mut *answer, PlainEntries.check(book, summary))")],
    "changes the book": [
        (BOUNDARY, "    fill(&mut *answer, PlainEntries.read(book))",
         "    let given = PlainEntries.read(book);\n    if book_len > 5 {\n"
         "        *book.as_ptr().add(5).cast_mut() ^= 1;\n    }\n    fill(&mut *answer, given)")],
    "does not come back": [
        (BOUNDARY, "    fill(&mut *answer, PlainEntries.run(book, procedure, inputs, budget, work))",
         "    while procedure == u64::MAX {\n        std::thread::yield_now();\n    }\n"
         "    fill(&mut *answer, PlainEntries.run(book, procedure, inputs, budget, work))")],
}


def copy_sources(folder):
    for name in ["plain", "cases", "stand_in", "mistdrover", "differential", "bench"]:
        shutil.copytree(RUST / name, folder / name, ignore=shutil.ignore_patterns("target"))
    shutil.copy(RUST / "Cargo.toml", folder)


def plant(folder, edits):
    for file, old, new in edits:
        text = (folder / file).read_text()
        if text.count(old) != 1:
            sys.exit(f"{file}: {text.count(old)} places for the edit of: {old}")
        (folder / file).write_text(text.replace(old, new))


def restore(folder, edits):
    for file, _, _ in edits:
        shutil.copy(RUST / file, folder / file)
        os.utime(folder / file)


def cargo(folder, *words, **variables):
    done = subprocess.run(["cargo", "build", "--quiet", "--release", "--offline", *words], cwd=folder,
                          env={**os.environ, "RUSTFLAGS": "-Awarnings", **variables},
                          capture_output=True, text=True)
    if done.returncode != 0:
        sys.exit(f"the build failed:\n{done.stderr}")


def try_flaw(flawed, harness, edits):
    """Builds the flawed library, links the unchanged harness with it, and runs that."""
    plant(flawed, edits)
    cargo(flawed / "stand_in")
    restore(flawed, edits)
    cargo(harness, "--bin", "differential", MISTDROVER_LIB=str(flawed / "stand_in/target/release"))
    program = harness / "target/release/differential"
    words = [str(program), "--random-only", "--cases", CASES]
    return subprocess.run(words, capture_output=True, text=True)


def first_difference(output):
    found = re.search(r"--case (\d+)", output)
    return f"case {found.group(1)}" if found else "no case named"


def main():
    asked = [name for name in FLAWS if not sys.argv[1:] or any(word in name for word in sys.argv[1:])]
    failed = 0
    with tempfile.TemporaryDirectory() as temporary:
        flawed, harness = Path(temporary) / "flawed", Path(temporary) / "harness"
        copy_sources(flawed)
        copy_sources(harness)
        for name in asked:
            done = try_flaw(flawed, harness, FLAWS[name])
            expected = 0 if name == "none" else 1
            right = done.returncode == expected
            failed += not right
            told = first_difference(done.stdout) if done.returncode else "no difference"
            print(f"{'ok' if right else 'WRONG':6} {name}: {told}", flush=True)
            if not right:
                print(done.stdout[-2000:], done.stderr[-2000:])
    print(f"{len(asked)} tried, {failed} wrong")
    sys.exit(1 if failed else 0)


if __name__ == "__main__":
    main()
