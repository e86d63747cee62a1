"""What the test scripts share. A script is its cases:

    from harness import Test, main, program

    def a_base_of_no_frames(test: Test) -> None:
        (test.folder / "base.toml").write_text("entry = 1")
        test.equal(program("list", "base.toml", cwd=test.folder), (1, "ENTRYMISSING 1a\\n", ""))

    if __name__ == "__main__":
        main(globals())

Each public function of the script whose first parameter is `test` is a case. `main` reads the words (--help shows
them), runs the cases, prints what is wrong and the last line 'N passed, M failed', with ', K skipped' if anything was,
and ends with status 0 or 1.

- results.py: the results of a case. script.py: `main`, and what a script says of itself. places.py: the programs that
are judged.
- running.py: commands with limits of time and memory. runs.py: a run with what it has to answer. shrinking.py: smaller
cases.
- pages.py, codes.py: pages whose blocks are run. png.py: pictures. html_pages.py, pyte_cells.py: pages and screens in
others.
- copies.py, stand_in_kit.py, parts.py: copies of the repository, a stand-in for the kit, and the parts of ./test.
- calls.py, call_cases.py: the program of single calls. refusing.py, peaks.py: runs with refused memory, and their
peaks.
- fixing.py: the fixes of findings, each made alone.
- edits.py, promises.py, tried.py: the functions of the crates, what their promises reach, and their edits.
- writing.py, written_bases.py, breaking.py: random texts whose faults and spans are known, and broken ones.
"""

from harness.places import CALLS, CC, EMULATOR, IS_ARM64, PROGRAM, TOP
from harness.running import Done, compiled, program, run, scratch
from harness.results import Counts, Test
from harness.script import About, main
