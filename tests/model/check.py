#!/usr/bin/env python3
"""One reading of the rules, held to answers worked out by hand and to the definitions; then the programs held to it.

check.py FOLDER SECOND STDIN STDOUT [SEED [COUNT]]: FOLDER has the programs test_driver and replay_program, SECOND is
the implementation in Rust, and STDIN and STDOUT are the stored script and text of test_driver.
COUNT is the number of random streams of messages and of scripts of a link and of transfers; of captures there are
twice, of streams for the reader eight times as many. The last line is 'N passed, M failed'.
"""
import pathlib
import sys

sys.path.insert(1, str(pathlib.Path(__file__).resolve().parents[1] / "lib"))
import check_breaks
import check_captures
import check_comparison
import check_counted
import check_device
import check_examples
import check_link
import check_messages
import check_recorder
import check_replay
import check_sample
import check_stored
import check_streams
import check_transfers
import check_whole_table
from checks import Checks, Program, seed_and_count

PATIENCE = 60  # seconds


def main():
    folder, second, stdin, stdout, *words = sys.argv[1:]
    seed, count = seed_and_count(words, 400)
    checks = Checks("model")
    check_comparison.check(checks)
    check_counted.check(checks)
    check_examples.check_model(checks)
    check_streams.check_model(checks, seed, 8 * count)
    check_breaks.check_model(checks, seed, count)
    check_messages.check_model(checks)
    check_link.check_model(checks)
    check_transfers.check_model(checks, seed, count // 4)
    check_whole_table.check_model(checks, seed)
    check_captures.check_model(checks, seed, count)
    check_replay.check_model(checks, seed, 2 * count)
    check_sample.check(checks)
    check_stored.check_files(checks, (stdin, stdout))
    with checks.unless_dead():
        program = Program(f"{folder}/test_driver", PATIENCE)
        check_examples.check_program(checks, program)
        check_streams.check_program(checks, program, seed, 8 * count)
        check_breaks.check_program(checks, program, seed, count)
        check_messages.check_program(checks, program, seed, count)
        check_link.check_program(checks, program, seed, count)
        check_transfers.check_program(checks, program, seed, count)
        check_whole_table.check_program(checks, program, seed)
        check_captures.check_program(checks, program, seed, count)
        check_device.check_program(checks, program, seed)
        check_stored.check_program(checks, program)
    with checks.unless_dead():
        check_replay.check_second(checks, second, seed, count)
        check_transfers.check_second(checks, second, seed, count // 4)
        check_whole_table.check_second(checks, second, seed)
    with checks.unless_dead():
        program = Program(f"{folder}/replay_program", PATIENCE)
        check_sample.check_program(checks, program)
        check_recorder.check_program(checks, program)
    return checks.end()


if __name__ == "__main__":
    sys.exit(main())
