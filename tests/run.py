"""Runs every test_*.py beside this file, each in a process of its own, as many at a time as there are processors. Prints a line for each
that has ended, with its seconds, and what it wrote if a test failed (target/tests has what all wrote); the last line is
'N passed, M failed'.

    python3 tests/run.py [model | others] [FOLDER]

With model only the tests that need nothing of target/ and of the crates' out/: of the definitions and of the model. With others only those that do. FOLDER is kept in
place of target/tests."""

import concurrent.futures
import os
import pathlib
import re
import subprocess
import sys
import time

FOLDER = pathlib.Path(__file__).resolve().parent
LONGEST = ('test_explore', 'test_definitions')
MODEL = {'test_census_model', 'test_comparison_model', 'test_definitions', 'test_drain', 'test_explore', 'test_fold', 'test_model',
         'test_order_model', 'test_room'}


def run(name, kept):
    """What the tests of one module wrote, how many there are, how many did not pass, and the seconds they took."""
    start = time.monotonic()
    done = subprocess.run([sys.executable, '-m', 'unittest', '-v', name], cwd=FOLDER, stdout=subprocess.PIPE, stderr=subprocess.STDOUT,
                          text=True, errors='replace')
    (kept / name).write_text(done.stdout, encoding='utf-8')
    ran = re.findall(r'^Ran (\d+) tests? in ', done.stdout, re.M)
    count = int(ran[-1]) if ran else 0
    last = done.stdout.rstrip().rsplit('\n', 1)[-1]
    bad = sum(int(n) for n in re.findall(r'=(\d+)', last)) if re.match(r'(OK|FAILED) \(', last) else 0
    if count == 0 or (done.returncode != 0 and bad == 0):
        bad = max(bad, 1)
    return done.stdout, max(count, bad), bad, time.monotonic() - start


def main(which='all', folder=FOLDER.parent / 'target' / 'tests'):
    chosen = {'all': lambda name: True, 'model': MODEL.__contains__, 'others': lambda name: name not in MODEL}[which]
    names = sorted((path.stem for path in FOLDER.glob('test_*.py') if chosen(path.stem)), key=lambda name: (name not in LONGEST, name))
    kept = pathlib.Path(folder)
    kept.mkdir(parents=True, exist_ok=True)
    passed = failed = ended = 0
    with concurrent.futures.ThreadPoolExecutor(os.cpu_count()) as pool:
        results = {pool.submit(run, name, kept): name for name in names}
        for result in concurrent.futures.as_completed(results):
            text, count, bad, seconds = result.result()
            passed, failed, ended = passed + count - bad, failed + bad, ended + 1
            print(text if bad else '', end='')
            print(f'tests: {ended} of {len(names)}: {results[result]} took {seconds:.0f} s, {count - bad} passed, {bad} failed', flush=True)
    print(f'{passed} passed, {failed} failed')
    return 1 if failed or not passed else 0


if __name__ == '__main__':
    sys.exit(main(*sys.argv[1:]))
