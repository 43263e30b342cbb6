#!/usr/bin/env python3
"""Tries what the scripts ./pitch and ./pitch_live do themselves, with stand-ins for program and kit.

    docs/check_launcher.py

The stand-in of the program writes its words and how many bytes it read; that of `rt` has no gate, so
the first use goes by `rt all check`. Another has a gate that keeps nothing, and three crates, to try
what bench/prove_program.py keeps of it. Nothing is proved. A case that wants a command which is not on
the path is left out. The last line is `N passed, M failed`; the exit status is 0 only where none
failed.
"""
import gzip, os, pty, re, shutil, signal, subprocess, sys, tempfile, time
from pathlib import Path

TOP = Path(__file__).resolve().parent.parent
PROGRAM = '''#!/bin/sh
echo "$*: $(wc -c)"
exit ${STATUS:-0}
'''
DIST = '''#!/bin/sh
echo "dist: $*"
'''
RT = '''#!/usr/bin/env python3
import os, shutil, sys
words = sys.argv[1:]
if words[0] == 'try':
    print(*words, len(sys.stdin.read()))
elif words[:2] == ['all', 'check']:
    print('== pitch_fields', '== summary', sep='\\n')
elif words[0] == 'run':
    shutil.copy(os.environ['STAND_IN'], 'out/' + os.path.basename(os.getcwd()))
sys.exit(int(os.environ.get('RT_' + words[0].upper(), '0')))
'''
GATE = '''#!/usr/bin/env python3
import os, shutil, sys, types
BELOW = {'low': [], 'high': ['low'], 'pitch': ['low', 'high']}

def text_of(file):
    return open(file).read() if os.path.isfile(file) else ''

class Crate:
    def __init__(self, name):
        self.name, self.folder, self.out = name, os.path.join(os.getcwd(), 'crates', name), sys.stdout
        self.rlib = f'{self.folder}/out/rlib/{name}.rlib'
    def below(self):
        return [it for it in CRATES if it.name in BELOW[self.name]]
    def makes_rlib(self):
        return self.name != 'pitch'
    def has_tests(self):
        return True
    def stamp(self):
        return self.name + text_of(f'{self.folder}/src') + ''.join(it.stamp() for it in self.below())
    def compile_by(self, backend, *how):
        return 1
    def ci(self, flags, tests):
        shutil.rmtree(f'{self.folder}/out', ignore_errors=True)
        if self.makes_rlib():
            os.makedirs(self.rlib)
        print('proving', self.name)
        return int(self.name == os.environ.get('FAILS'))

CRATES = [Crate(it) for it in BELOW]
rtlib = types.SimpleNamespace(text_of=text_of, crates_below=lambda top: CRATES, stop_on_unread=None)
processors, free, handles_of = lambda: 4, lambda: 10 ** 9, lambda root: ()
say = lambda text, out: print('rt:', text)
crates_of = lambda root, aside: sys.exit('these crates are to be proved as they are')
edits_of = lambda crate: sys.exit('no edit is to be tried')
in_lanes = run = None

def ci_from_nothing(aside):
    root, unread = '.', rtlib.stop_on_unread  # rtlib.stop_on_unread(root, crates)
    tasks = {}
    for crate in crates_of(root, aside):
        waits = [(it.name, 'proof') for it in crate.below()]
        prove = lambda given, jobs, crate=crate: crate.ci(['--jobs', str(jobs)], False) == 0
        tasks[crate.name, 'proof'] = waits, 1, 1, prove
        tasks[crate.name, 'tests'] = waits, 1, 1, lambda given, jobs, crate=crate: not crate.has_tests()
        tasks[crate.name, 'edits'] = waits, 1, 1, lambda given, jobs, crate=crate: not edits_of(crate)[0]
    given = in_lanes(tasks)
    return int(not all(given[crate.name, 'proof'] and run(crate, tests, '') for crate in CRATES for tests in (0, 1)))
'''
SAMPLE, CAPTURE = 'examples/sample.pitch', 'examples/captures/sample.pcap'
# The words, what the program is to be given of them, how many bytes, and the command that is wanted.
WORDS = [
    ('follow', 'follow', 0, None),
    ('follow ' + SAMPLE, 'follow', 202, None),
    ('follow --hold 64 ' + SAMPLE, 'follow --hold 64', 202, None),
    ('follow --hold=64 ' + SAMPLE, 'follow --hold=64', 202, None),
    ('follow --hold ' + SAMPLE, 'follow --hold ' + SAMPLE, 0, None),
    (f'show {SAMPLE} {SAMPLE}', f'show {SAMPLE} {SAMPLE}', 0, None),
    ('storm ' + SAMPLE, 'storm ' + SAMPLE, 0, None),
    ('follow nowhere.pcap', 'follow nowhere.pcap', 0, None),
    ('follow ' + CAPTURE, 'follow --pcap', 674, None),
    ('follow --pcap ' + CAPTURE, 'follow --pcap', 674, None),
    ('follow day.pcap.gz', 'follow --pcap', 674, 'zcat'),
    ('follow day.pcap.zst', 'follow --pcap', 674, 'zstdcat'),
    ('follow day.pcapng', 'follow --pcap', 674, 'editcap'),
    ('quotes day.pcap.gz', 'quotes', 202, 'zcat'),
    ('--progress follow day.pcap.gz', 'follow --pcap', 674, 'pv'),
]


def prepared(folder):
    """A copy of the tree with sources of one crate, and the environment in which rt is the stand-in."""
    tree, kit = folder / 'tree', folder / 'kit'
    sources = ('crates/pitch/src', 'crates/pitch_live/src')
    for name in ('pitch', 'pitch_live', 'README.md', 'crates.txt', 'examples', 'bench', *sources):
        copy = shutil.copytree if (TOP / name).is_dir() else shutil.copy
        (tree / name).parent.mkdir(parents=True, exist_ok=True)
        copy(TOP / name, tree / name)
    (kit / 'bin').mkdir(parents=True)
    (kit / 'KIT-ID').write_text('stand-in\n')
    (tree / 'packages').mkdir()
    scripts = {kit / 'bin' / 'rt': RT, folder / 'program': PROGRAM, tree / 'packages' / 'dist.sh': DIST}
    for path, text in scripts.items():
        path.write_text(text)
        path.chmod(0o755)
    capture = (tree / CAPTURE).read_bytes()
    (tree / 'day.pcap.gz').write_bytes(gzip.compress(capture))
    (tree / 'cut.pcap.gz').write_bytes(gzip.compress(capture)[:-9])
    if shutil.which('zstd'):
        subprocess.run(['zstd', '-q', '-o', tree / 'day.pcap.zst', tree / CAPTURE], check=True)
    if shutil.which('editcap'):
        subprocess.run(['editcap', '-F', 'pcapng', tree / CAPTURE, tree / 'day.pcapng'], check=True)
    path = f'{kit}/bin:{os.environ["PATH"]}'
    return tree, {**os.environ, 'PATH': path, 'STAND_IN': str(folder / 'program')}


def read_of(terminal):
    """What comes next at the near end of a terminal; nothing once nobody has the far end."""
    try:
        return os.read(terminal, 4096)
    except OSError:
        return b''


class Checks:
    def __init__(self, folder):
        self.tree, self.environ = prepared(folder)
        self.passed = self.failed = 0

    def run(self, words, **more):
        how = {'cwd': self.tree, 'env': {**self.environ, **more}, 'stdin': subprocess.DEVNULL}
        return subprocess.run(['./pitch', *words.split()], capture_output=True, text=True, **how)

    def hold(self, what, is_so, done):
        if is_so:
            self.passed += 1
        else:
            self.failed += 1
            print(f'FAIL {what}: status {done.returncode}\n{done.stdout}{done.stderr}', end='')

    def build(self):
        """The first use, one that is broken off, and one after an edit."""
        done = self.run('follow', RT_RUN='1')
        self.hold('a build that fails', done.returncode == 1 and 'the build failed' in done.stderr, done)
        done = self.run('follow', RT_ALL='1')
        self.hold('a proof that fails', done.returncode == 1 and 'not proved' in done.stderr, done)
        done = self.run('follow')
        said = 'another gate' in done.stderr and 'pitch_fields, crate 1' in done.stderr
        self.hold('a first use', (done.returncode, done.stdout) == (0, 'follow: 0\n') and said, done)
        done = self.run('follow', STATUS='3')
        self.hold('a second use', (done.returncode, done.stderr) == (3, ''), done)
        (self.tree / 'crates/pitch/src/main.rt').touch()
        done = self.run('follow', RT_RUN='137')
        self.hold('a build that is killed', done.returncode == 1, done)
        done = self.run('follow')
        self.hold('the build after it', done.returncode == 0 and 'proving' in done.stderr, done)

    def proofs(self, folder):
        """What is proved of three crates by a gate that keeps nothing: first, after a failure, and anew."""
        tree, kit = folder / 'three', folder / 'gate'
        shutil.copytree(TOP / 'bench', tree / 'bench')
        for name in ('low', 'high', 'pitch'):
            (tree / 'crates' / name).mkdir(parents=True)
        kit.mkdir()
        (kit / 'rt').write_text(GATE)
        (kit / 'rt').chmod(0o755)
        path = f'{kit}:{os.environ["PATH"]}'

        def hold(what, status, proved, **more):
            how = {'cwd': tree, 'env': {**os.environ, 'PATH': path, **more}, 'capture_output': True, 'text': True}
            done = subprocess.run([sys.executable, 'bench/prove_program.py', 'pitch'], **how)
            names = [line.split()[1] for line in done.stdout.splitlines() if line.startswith('proving ')]
            self.hold(what, (done.returncode, names) == (status, proved), done)

        hold('a crate that is not proved', 1, ['low', 'high'], FAILS='high')
        hold('the proofs after it', 0, ['high', 'pitch'])
        hold('proofs that are kept', 0, ['pitch'])
        (tree / 'crates/high/src').write_text('another')
        hold('an edited crate', 0, ['high', 'pitch'])
        shutil.rmtree(tree / 'crates/low/out')
        hold('crates above one that is proved anew', 0, ['low', 'high', 'pitch'])

    def words(self):
        for words, given, count, wanted in WORDS:
            if wanted is None or shutil.which(wanted):
                done = self.run(words)
                is_so = (done.returncode, done.stdout) == (0, f'{given}: {count}\n')
                self.hold(words, is_so and bool(done.stderr) == (given != words), done)
        done = self.run('follow cut.pcap.gz')
        self.hold('a cut file', done.returncode == 1 and 'zcat failed' in done.stderr, done)
        done = self.run('follow day.pcap.gz', STATUS='4')
        self.hold('a status behind a stage', done.returncode == 4, done)
        done = self.run('--progress follow')
        self.hold('progress of no file', done.returncode == 1 and 'wants a FILE' in done.stderr, done)
        done = self.run('--unproved follow ' + SAMPLE)
        is_so = done.stdout == 'try -- follow 202\n' and 'NOTHING IS PROVED' in done.stderr
        self.hold('an unproved run', is_so and done.returncode == 0, done)
        done = self.run('--dist folder')
        self.hold('a folder to be given away', (done.returncode, done.stdout) == (0, 'dist: folder\n'), done)
        done = self.run('pack --help')
        self.hold('help of a command', done.stdout.startswith('  pack --unit U '), done)

    def live(self):
        """./pitch_live: its input ends by a signal, by the end of a pipe, and not by that of a file."""
        how = {'cwd': self.tree, 'env': self.environ, 'text': True}
        done = subprocess.run(['./pitch_live', 'listen'], input='', capture_output=True, **how)
        self.hold('a first use of pitch_live', (done.returncode, done.stdout) == (0, 'listen: 0\n'), done)
        how = {**how, 'env': {**self.environ, 'STATUS': '5'}}
        told = {'stdin': subprocess.PIPE, 'stdout': subprocess.PIPE, 'stderr': subprocess.PIPE}
        for signum in (signal.SIGINT, signal.SIGTERM):
            with subprocess.Popen(['./pitch_live', 'listen', '--a', 'X'], **how, **{**told, 'stdin': subprocess.DEVNULL}) as run:
                time.sleep(3)
                waits = run.poll() is None
                run.send_signal(signum)
                out, err = run.communicate(timeout=20)
                done = subprocess.CompletedProcess('', run.returncode, out, err)
                self.hold(f'an end by {signum.name}', waits and (run.returncode, out) == (5, 'listen --a X: 0\n'), done)
        done = subprocess.run(['./pitch_live', 'listen'], input='four', capture_output=True, **how)
        self.hold('an end of a pipe', (done.returncode, done.stdout) == (5, 'listen: 4\n'), done)
        done = subprocess.run(['./pitch_live', '--help'], input='', capture_output=True, **how)
        rows = re.findall(r'^\| `--.*?\|', (TOP / 'docs/LIVE.md').read_text(encoding='utf-8'), re.M)
        options = set(re.findall(r'--[a-z]+', ' '.join(rows)))
        is_whole = options and options <= set(re.findall(r'--[a-z]+', done.stdout))
        self.hold('help of pitch_live', done.returncode == 0 and is_whole, done)
        done = subprocess.run(['./pitch_live', '--version'], input='', capture_output=True, **how)
        is_said = done.returncode == 0 and re.search('^built [0-9a-f]{64}$', done.stdout, re.M)
        self.hold('version of pitch_live', is_said, done)

    def behind(self):
        """./pitch_live in the background of a terminal: it goes on, and ends by a signal."""
        words = 'set -m; ./pitch_live listen & sleep 2; kill -INT %1; wait %1; echo ended $?'
        process, terminal = pty.fork()
        if process == 0:
            os.chdir(self.tree)
            os.execvpe('bash', ['bash', '--norc', '-c', words], self.environ)
        said = b''
        while piece := read_of(terminal):
            said += piece
        status = os.WEXITSTATUS(os.waitpid(process, 0)[1])
        os.close(terminal)
        done = subprocess.CompletedProcess('', status, said.decode(), '')
        self.hold('in the background', 'listen: 0' in done.stdout and 'ended 0' in done.stdout, done)


def main():
    with tempfile.TemporaryDirectory() as folder:
        checks = Checks(Path(folder))
        checks.build()
        checks.proofs(Path(folder))
        checks.words()
        checks.live()
        checks.behind()
    print(f'{checks.passed} passed, {checks.failed} failed')
    return 1 if checks.failed else 0


if __name__ == '__main__':
    sys.exit(main())
