#!/usr/bin/env python3
"""Tells what the checker takes for single functions of a crate, in processor seconds.

    bench/proof_times.py CRATE                  which functions to try first
    bench/proof_times.py CRATE FUNCTION..       what these take

FUNCTION is a name as `rt check` prints it, without the crate: `running::make_ends`. `rt check --jobs 1`
has proved the crate before, or `rt check --test --jobs 1` a crate of tests. A check that finds nothing to
do is timed first. Then, for each function, the files that the checker kept of its statements and its
proof are removed, and what the check that makes them anew takes above the first is the function's.

Processor seconds grow on a loaded machine too, by a half and more, so compare two forms of a function
in turn. The list goes by the times at which a first check kept its files: what else ran then is in
them, so they say which functions to time, and not what they take.
"""
import collections, os, pathlib, resource, subprocess, sys

TOP = pathlib.Path(os.path.realpath(__file__)).parent.parent
# The ends of the names of what is kept of a function, behind the function.
PARTS = set('Answers Code Contracts Given Goals Invariants Kinds Layout Lts Met Mir Proof Reads Statement '
    'Symbol TheLink Tie View'.split())


def function_of(path):
    """The function that a kept file is of, with its modules; none of a file of lemmas."""
    words = path.stem.partition('-proofs.')[2].split('.')
    while words and words[-1] in PARTS:
        words.pop()
    return '::'.join(words)


def kept_files(folder):
    """The files that checks kept in a crate's folder, and those of each function."""
    files = [path for path in (folder / 'out/incremental').rglob('*.oantt') if path.parent.name != 'records']
    if not files:
        sys.exit('nothing is kept: run rt check --jobs 1 in the crate, with --test in a crate of tests')
    functions = collections.defaultdict(list)
    for path in files:
        functions[function_of(path)].append(path)
    return files, {name: paths for name, paths in functions.items() if any('Lts' in it.name for it in paths)}


def checked(folder):
    """The processor seconds of a check of the crate over what is kept, with its tests if it has any."""
    has_tests = any('#[test]' in file.read_text() for file in (folder / 'src').rglob('*.rt'))
    words = ['rt', 'check', *['--test'] * has_tests, '--jobs', '1']
    before = resource.getrusage(resource.RUSAGE_CHILDREN)
    done = subprocess.run(words, cwd=folder, capture_output=True, text=True)
    if done.returncode:
        sys.exit(f'{done.stdout[-2000:]}{done.stderr}the crate is not proved')
    after = resource.getrusage(resource.RUSAGE_CHILDREN)
    return after.ru_utime - before.ru_utime + after.ru_stime - before.ru_stime


def list_first(files, functions):
    """Prints the functions whose files were kept last after the one before them."""
    times = sorted((path.stat().st_mtime, path) for path in files)
    took = collections.Counter()
    for (before, _), (later, path) in zip(times, times[1:]):
        took[function_of(path)] += later - before if later - before < 600 else 0
    for name, seconds in took.most_common():
        if name in functions and seconds >= 1:
            print(f'{seconds:7.1f} {name}')


def main():
    if len(sys.argv) < 2:
        sys.exit(__doc__)
    folder = TOP / 'crates' / sys.argv[1]
    files, functions = kept_files(folder)
    if len(sys.argv) == 2:
        return list_first(files, functions)
    lacking = [name for name in sys.argv[2:] if name not in functions]
    if lacking:
        sys.exit(f'nothing is kept of {lacking[0]}: a function is one of {" ".join(sorted(functions))}')
    checked(folder)
    base = checked(folder)
    print(f'{base:7.1f} nothing')
    for name in sys.argv[2:]:
        for path in functions[name]:
            path.unlink()
        print(f'{checked(folder) - base:7.1f} {name}', flush=True)


main()
