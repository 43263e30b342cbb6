#!/usr/bin/env python3
"""Proves a crate and those that it stands on, from nothing, and builds it: of a program crates/NAME/out/NAME.

    bench/prove_program.py NAME

Each crate gets the proof that the gate makes of it: this calls the gate of the kit's `rt` over these
crates, without the tests, the edits that must fail and the runs of programs, and in an order of its
own. A run that was broken off goes on with the crates that it had not ended. Where the kit's gate
keeps what it proved (`ci_over`), that is kept there, beside the kit: a gate after it proves these
crates no more, and after a gate this takes seconds. Where it keeps nothing (`ci_from_nothing`), what
is proved stands in each crate's `out/`. What rt made there before is removed, but for what `rt check`
kept.

The longest chain of crates goes first, a crate begins as soon as those below it are built, and where
fewer are ready than there are processors, the first gets three or four jobs. A line is written for
each crate that has ended. The status is 0 where all is proved and built, 1 where something is not, 2
where rt stopped before any proof, and 3 where the gate of this kit is another than this was written
for, or does not work in this folder.
"""
import inspect, os, re, signal, sys, time, traceback
from concurrent.futures import FIRST_COMPLETED, ThreadPoolExecutor, wait
from pathlib import Path

sys.dont_write_bytecode = True
from the_kit import crates_of, the_kit

# The kit's gate by its name, and what its text has where it calls what is replaced here.
CALLS = ('edits_of(crate)', 'crate.has_tests()', 'in_lanes(tasks)', 'run(crate, tests, ')
GATES = {
    'ci_over': ('set_aside(root, ', *CALLS),
    'ci_from_nothing': ('crates_of(root, ', 'rtlib.stop_on_unread(', 'crate.ci([', *CALLS),
}
# What a proof was seen to take at most of the memory that the kit reckons for it.
SEEN = 0.5


def gate_of(rt):
    """The name of the kit's gate, once it is seen to call what is replaced here."""
    name = next((it for it in GATES if hasattr(rt, it)), None)
    if name is None:
        raise LookupError(f'this kit has no gate named {" or ".join(GATES)}')
    text = inspect.getsource(getattr(rt, name))
    lacking = [call for call in GATES[name] if call not in text]
    if lacking:
        raise LookupError(f'the gate of this kit does not call {lacking[0]}')
    return name


def functions_of(crate):
    return sum(len(re.findall(rb'\bfn \w', it.read_bytes())) for it in Path(crate.folder, 'src').rglob('*.rt'))


def chains(tasks, functions):
    """How long the longest chain is that begins with each task. A function costs the more, the more
    crates stand below its own."""
    behind = dict.fromkeys(tasks, 0)
    # Each stands after those that it waits for.
    for key, (waits, _, _, _) in reversed([*tasks.items()]):
        behind[key] += functions[key[0]] * (10 + len(waits))
        for below in waits:
            behind[below] = max(behind[below], behind[key])
    return behind


def jobs_of(idle, others, fit):
    """The jobs of a proof that begins: those that no other ready proof wants, as far as memory is
    free. Never two, which cost twice the work and gain nothing."""
    jobs = min(4, idle - others, 1 + int((fit - 1) / 0.6))
    return jobs if jobs > 2 else 1


class Progress:
    """Says how far the proofs are."""

    def __init__(self, count, lanes):
        self.count, self.ended, self.since = count, 0, time.monotonic()
        print(f'pitch: {count} crates, at most {lanes} at a time', flush=True)

    def end(self, name, is_proved, begun, jobs):
        now = time.monotonic()
        self.ended += 1
        print(f'pitch: {name} {"proved" if is_proved else "NOT PROVED"}, {self.ended} of {self.count};'
            f' {now - begun:.0f} s with {jobs} jobs, to second {now - self.since:.0f}', flush=True)
        if not is_proved:
            print('pitch: no other crate is begun; what runs is ended, and kept', flush=True)


def in_order(tasks, functions, lanes, memory):
    """Runs the proofs, and then what else the gate wants to be told, and returns what each gave. Once
    a crate is not proved, no other is begun: those that run are ended, and so kept."""
    behind, running, given = chains(tasks, functions), {}, {}
    left = sorted((it for it in tasks if it[1] == 'proof'), key=lambda it: -behind[it])
    progress = Progress(len(left), lanes)
    with ThreadPoolExecutor(lanes) as pool:
        while left or running:
            ready = [it for it in left if all(below in given for below in tasks[it][0])]
            for at, key in enumerate(ready):
                _, _, needs, call = tasks[key]
                idle = lanes - sum(jobs for _, jobs, _, _ in running.values())
                fit = (memory - sum(taken for _, _, taken, _ in running.values())) / (SEEN * needs)
                if idle < 1 or running and fit < 1:
                    break
                jobs = jobs_of(idle, len(ready) - at - 1, fit)
                taken = SEEN * needs * (1 + 0.6 * (jobs - 1))
                left.remove(key)
                running[pool.submit(call, given, jobs)] = key, jobs, taken, time.monotonic()
            for it in wait(running, return_when=FIRST_COMPLETED).done:
                key, jobs, _, begun = running.pop(it)
                given[key] = it.result()
                progress.end(key[0], given[key], begun, jobs)
            if not all(given.values()):
                left.clear()
    for key in tasks:
        if key not in given:
            given[key] = key[1] != 'proof' and tasks[key][3](given, 1)
    return given


def narrow(rt, every):
    """Has the gate of the kit prove, and do nothing else, in the order of this file."""
    functions = {it.name: functions_of(it) for it in every}
    lanes = int(os.environ.get('RT_JOBS') or rt.processors())
    rt.edits_of = lambda crate: ([], [])
    rt.Crate.has_tests = lambda crate: False
    rt.in_lanes = lambda tasks: in_order(tasks, functions, lanes, 0.85 * rt.free())
    rt.run = lambda crate, tests, ending: True


def over_kept(rt, every, named):
    """The call that proves by a gate which keeps what it proved."""
    inspect.signature(rt.ci_over).bind(None, False, [])
    if rt.Kept([]).at is None:
        print('pitch: nothing can be kept beside the kit: broken off, this begins anew', flush=True)

    def set_aside(root, names, aside):
        for crate in [named, *named.below()]:
            for made in ('rlib', *(crate.name + end for end in rt.BACKENDS.values())):
                rt.clear(f'{crate.folder}/out/{made}')

    rt.set_aside = set_aside
    return lambda: rt.where_disk_lasts(rt.ci_over, None, False, [named.name])


def keep_in_crates(rt):
    """Has a library count as proved where its `out/rlib` was made here of the same sources and kit,
    and where none of those below it was proved anew."""
    prove, stamp, stamps, anew = rt.Crate.ci, rt.Crate.stamp, {}, set()

    def stamp_once(crate):
        if crate.name not in stamps:
            stamps[crate.name] = stamp(crate)
        return stamps[crate.name]

    def prove_or_take(crate, flags, tests):
        mark = f'{crate.folder}/out/rlib/proved'
        is_old = anew.isdisjoint(it.name for it in crate.below()) and os.path.isdir(crate.rlib)
        if is_old and rt.rtlib.text_of(mark) == crate.stamp():
            rt.say(f'{crate.name}, which an earlier run proved', crate.out)
            return 0
        anew.add(crate.name)
        status = prove(crate, flags, tests)
        # What was edited meanwhile has another stamp.
        if status == 0 and crate.makes_rlib() and stamp(crate) == crate.stamp():
            with open(mark, 'w', encoding='utf-8') as it:
                it.write(crate.stamp())
        return status

    rt.Crate.stamp, rt.Crate.ci = stamp_once, prove_or_take


def from_nothing(rt, every, named):
    """The call that proves by a gate which keeps nothing."""
    unread = rt.rtlib.stop_on_unread
    rt.rtlib.stop_on_unread = lambda folder, crates: unread(folder, every)
    lowest_first = sorted([named, *named.below()], key=lambda it: len(it.below()))
    rt.crates_of = lambda root, aside: lowest_first
    # The gate compares what two compilers make; what is used is LLVM's.
    compile_by = rt.Crate.compile_by
    rt.Crate.compile_by = lambda crate, backend, *how: backend == 'llvm' and compile_by(crate, backend, *how)
    keep_in_crates(rt)
    return lambda: rt.ci_from_nothing(None)


PROOFS = {'ci_over': over_kept, 'ci_from_nothing': from_nothing}


def main():
    if len(sys.argv) != 2:
        sys.exit(__doc__)
    top = os.path.dirname(os.path.dirname(os.path.realpath(__file__)))
    os.chdir(top)
    # An interrupt ends it at once, and with it what it started.
    signal.signal(signal.SIGINT, signal.SIG_DFL)
    try:
        rt = the_kit()
        proof_of = PROOFS[gate_of(rt)]
        every = crates_of(rt, top)
        named = next(it for it in every if it.name == sys.argv[1])
        narrow(rt, every)
        prove = proof_of(rt, every, named)
    except SystemExit:
        return 3
    return prove()


def status():
    """The status; whatever goes wrong between this file and the kit is that the kit is another."""
    try:
        return main()
    except Exception:
        traceback.print_exc()
        return 3


if __name__ == '__main__':
    sys.exit(status())
