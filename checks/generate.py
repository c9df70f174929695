#!/usr/bin/env python3
"""Makes files of evidence of many kinds, each with the verdict that it is meant to have, and sees that the
second verifier and the program `nfsacc check` both give it: the node that is exposed, and of a replay the
fault and its entry's number. All that `--json` and `--explain` say of a file is compared, too, with what the
second verifier finds in it, and of every third file what they say with `--entries` and `--state`.

usage: checks/generate.py PROGRAM COUNT SEED [KIND..]    of all kinds, after those of which each is made once; or of these
                                                         kinds alone. Several programs, with a comma between them, must
                                                         say the same
       checks/generate.py --show INDEX SEED [KIND..]     writes one of these files to standard output
       checks/generate.py --stored FOLDER                makes the files that checks/evidence keeps of it
       checks/generate.py --handed bases|books|gaps|logs|replays    writes the texts that checks/refused_memory reads
"""

import json
import os
import subprocess
import sys
import tempfile
from collections import Counter
from collections.abc import Iterator
from random import Random

sys.dont_write_bytecode = True
from generator.handed import handed  # noqa: E402
from generator.kinds import EACH, KINDS, Case  # noqa: E402
from generator.stored import STORED  # noqa: E402
from verifier.evidence import Verdict, judge  # noqa: E402
from verifier.explain import Detail, differences  # noqa: E402


def made(index: int, seed: str, names: list[str]) -> tuple[str, Case]:
    """The kind of a file and the file: the first ones are of each kind in turn."""
    random = Random(f'{seed} {index}')
    if index < len(names):
        name = names[index]
    else:
        name = random.choices(names, [KINDS[name][1] for name in names])[0]
    return name, KINDS[name][0](random)


def all_made(count: int, seed: str, names: list[str]) -> Iterator[tuple[str, int, Case]]:
    """The files of which each is made once, and so many others; where kinds are named, others of these alone."""
    for name, number, make in EACH if not names else []:
        for place in range(number):
            yield name, place, make(Random(f'{seed} {name} {place}'), place)
    for index in range(count):
        name, case = made(index, seed, names or list(KINDS))
        yield name, index, case


def said(program: str, path: str, *options: str) -> str:
    """What the program says of a file, with the status for it."""
    run = subprocess.run([program, 'check', *options, path], capture_output=True, check=False)
    text = run.stdout.decode()
    exposes = text.startswith(('exposed ', '{"verdict":"exposed '))
    if run.returncode != (0 if exposes else 1) or run.stderr:
        raise SystemExit(f'{program}: status {run.returncode} with {text!r} and {run.stderr!r} of {path}')
    return text


def verdict_in(json_text: str) -> Verdict:
    """The verdict that the program gives."""
    told = json.loads(json_text)
    words, fault = told['verdict'].split(), told.get('fault')
    return Verdict(int(words[1]) if words[0] == 'exposed' else None,
                   (fault['fault'], int(fault['entry'])) if fault else None)


def told_otherwise(programs: list[str], path: str, data: bytes, index: int) -> list[str]:
    """What is said otherwise than the file shows where all entries are asked for, and the state before one."""
    detail = Detail(entries=True, state=1 + index % 11)
    options = '--entries', '--state', str(detail.state)
    texts = [(said(program, path, '--json', *options), said(program, path, *options)) for program in programs]
    return differences(data, *texts[0], detail) + ['programs that differ'] * (texts.count(texts[0]) != len(texts))


def compare(programs: list[str], cases: Iterator[tuple[str, int, Case]]) -> tuple[int, int]:
    """Judges files of kinds: how many they are, and how many verdicts or explanations aren't as they are meant to be."""
    kinds, wrong = Counter(), 0
    with tempfile.TemporaryDirectory() as folder:
        path = os.path.join(folder, 'case')
        for name, index, case in cases:
            with open(path, 'wb') as file:
                file.write(case.data)
            texts = [(said(program, path, '--json'), said(program, path, '--explain')) for program in programs]
            meant, judged, told = Verdict(case.exposed, case.fault), judge(case.data), verdict_in(texts[0][0])
            otherwise = differences(case.data, *texts[0])
            if index % 3 == 0:
                otherwise += told_otherwise(programs, path, case.data, index // 3)
            kinds[name] += 1
            if not meant == judged == told or otherwise or texts.count(texts[0]) != len(texts):
                wrong += 1
                print(f'{name} {index}: meant {meant}, verify.py {judged}, {programs} {told}', *otherwise,
                      sep='\n  ', file=sys.stderr)
    print(', '.join(f'{name} {number}' for name, number in sorted(kinds.items())))
    return kinds.total(), wrong


def store(folder: str):
    for make in STORED:
        with open(os.path.join(folder, f'{make.__name__}.evidence'), 'wb') as file:
            file.write(make())


def main() -> int:
    if len(sys.argv) == 3 and sys.argv[1] == '--stored':
        store(sys.argv[2])
        return 0
    if len(sys.argv) == 3 and sys.argv[1] == '--handed':
        sys.stdout.buffer.write(handed(sys.argv[2]))
        return 0
    if len(sys.argv) < 4:
        print(__doc__, file=sys.stderr)
        return 2
    programs, number, seed, *names = sys.argv[1:]
    if programs == '--show':
        sys.stdout.buffer.write(made(int(number), seed, names or list(KINDS))[1].data)
        return 0
    judged, wrong = compare(programs.split(','), all_made(int(number), seed, names))
    print(f'{judged} files were judged, {wrong} otherwise than they are meant to be')
    return 1 if wrong else 0


if __name__ == '__main__':
    sys.exit(main())
