#!/usr/bin/env python3
"""Tries the scripts of this folder.

    packages/check.py [PROGRAM [LIVE]]

PROGRAM is the path of the built program, LIVE that of the built `pitch_live`: a folder, a Debian
package and a root filesystem are made of them and tried, where dpkg-deb stands and root may chroot.
Without any the man pages and the completions are. The last line is `N passed, M failed`; the exit
status is 0 only where none failed.
"""
import os
import re
import shutil
import subprocess
import sys
import tempfile

HERE = os.path.dirname(os.path.abspath(__file__))
TOP = os.path.dirname(HERE)
COMMANDS = 'follow show pack replay storm drill demo relay quotes audit'.split()
# The last line that `follow` writes of the sample.
LAST = 'order 7 S 1000 ZVZZT+P 10.5000 hidden mpid=ABCD'
# What stands in no folder that is handed on.
KIT_ONLY = ('crates', '.ci', 'bench', 'examples/c')


def tried(words, given=b'', **more):
    """How a program ends, what it writes and what it says."""
    done = subprocess.run(words, input=given, capture_output=True, timeout=120, **more)
    return done.returncode, done.stdout.decode('utf-8', 'replace'), done.stderr.decode()


def script(name, *words):
    return tried([os.path.join(HERE, name), *words])


def completed(*words, program='pitch'):
    """What the completion offers behind these words."""
    lines = script('texts.py', 'completion', *[program][program == 'pitch':])[1]
    ask = '%s\nCOMP_WORDS=(%s %s)\nCOMP_CWORD=%d\n_%s\necho "${COMPREPLY[@]}"'
    asked = ask % (lines, program, ' '.join(words), len(words), program)
    return tried(['bash', '-c', asked])[1].split()


def of_texts():
    status, page, said = script('texts.py', 'man')
    rows = re.findall(r'^\.TP\n\.B ([a-z]+)', page, re.M)
    yield 'the commands of the man page', sorted(set(rows)), sorted(COMMANDS)
    yield 'its statuses', re.findall(r'^\.TP\n\.B ([0-9])$', page, re.M), list('0234567')
    if shutil.which('groff'):
        yield 'its form', tried(['groff', '-man', '-Tutf8', '-ww'], page.encode())[::2], (0, '')
    yield 'every command is completed', completed("''"), COMMANDS
    yield 'a command', completed('st'), ['storm']
    yield 'options', completed('storm', '--'), ['--number', '--units', '--steps', '--workers']
    yield 'an option', completed('follow', '--po'), ['--port']
    yield 'a command without any', completed('show', '--'), []
    status, page, said = script('texts.py', 'man', 'pitch_live')
    parts = re.findall(r'^\.SH WORDS OF ([A-Z]+)$', page, re.M)
    yield 'the commands of the live man page', parts, ['LISTEN', 'SERVE']
    yield 'its words', [page.count('\\-\\-%s ' % it) for it in ('hold', 'kept', 'setup')], [1, 1, 2]
    if shutil.which('groff'):
        yield 'its form too', tried(['groff', '-man', '-Tutf8', '-ww'], page.encode())[::2], (0, '')
    yield 'a live command', completed('li', program='pitch_live'), ['listen']
    yield 'its option', completed('listen', '--ho', program='pitch_live'), ['--hold']
    yield 'an option of the other', completed('serve', '--ke', program='pitch_live'), ['--kept']


def of_faults():
    with tempfile.TemporaryDirectory() as folder:
        for name, *words in (
            ('dist.sh', '--what'), ('dist.sh', folder, '--program'), ('dist.sh', folder, folder),
            ('dist.sh', folder + '/new', '--program', folder + '/none'),
            ('dist.sh', folder, '--program', '/bin/sh'),
            ('dist.sh', folder + '/new', '--live', '/bin/sh'),
            ('dist.sh', folder + '/new', '--program', '/bin/sh', '--live', folder + '/none'),
            ('dist.sh', folder + '/new', '--program', os.path.join(HERE, 'dist.sh')),
            ('deb.sh',), ('deb.sh', folder), ('container.sh', folder), ('texts.py',),
            ('container.sh', folder, folder + '/new.tar'),
            ('library.sh', '--what'), ('library.sh', folder, '--library'),
            ('library.sh', folder + '/new', '--library', '/bin/sh'),
            ('library.sh', folder + '/new', '--library', folder + '/none'),
        ):
            status, _, said = script(name, *words)
            is_one = len(said.splitlines()) == 1 and said.startswith(name + ': ')
            yield 'fault of %s' % [name, *words], (status > 0, is_one or said), (True, True)
        yield 'nothing is left', os.listdir(folder), []


def broken_links(folder):
    for at, _, names in os.walk(folder):
        for name in names:
            if name.endswith('.md'):
                with open(os.path.join(at, name), encoding='utf-8') as file:
                    for target in re.findall(r'\]\(([^)\s#]+)', file.read()):
                        if ':' not in target and not os.path.exists(os.path.join(at, target)):
                            yield name, target


def last_line(words, sample):
    with open(sample, 'rb') as file:
        lines = tried(words, file.read())[1].splitlines()
    return lines[-1] if lines else ''


# Words with which `pitch_live` ends at once, and what it then says.
AT_ONCE = ['listen', '--a', '127.0.0.1:0', '--seconds', '0']
HEARD_NOTHING = (0, '', 'pitch_live: datagrams 0 faulty 0 blocks 0 stray 0\n')


def of_program(program, live):
    of_live = ['--live', live] if live else []
    with tempfile.TemporaryDirectory() as room:
        folder, sample = room + '/dist', os.path.join(TOP, 'examples', 'sample.pitch')
        status, about, said = script('dist.sh', folder, '--program', program, *of_live)
        yield 'a folder', (status, said), (0, '')
        totals = [tried(['sha256sum', it])[1].split()[0] for it in (program, live) if it]
        found = re.findall(r'^(?:program|live   ) (\w*), given by name', about, re.M)
        yield 'the sums of the programs', found, totals
        yield 'the sums', tried(['sha256sum', '-c', '--quiet', 'SHA256SUMS'], cwd=folder), (0, '', '')
        yield 'no link leads nowhere', list(broken_links(folder)), []
        yield 'nothing of the kit', [it for it in KIT_ONLY if os.path.exists('%s/%s' % (folder, it))], []
        yield 'it runs there', last_line([folder + '/pitch', 'follow'], folder + '/examples/sample.pitch'), LAST
        if live:
            yield 'the live one runs there', tried([folder + '/pitch_live', *AT_ONCE]), HEARD_NOTHING
        check = tried([folder + '/examples/audit/check.py', folder + '/pitch'])
        yield 'examples run there', (check[0], check[1].endswith(' passed, 0 failed\n')), (0, True)
        if shutil.which('dpkg-deb'):
            yield 'a package', script('deb.sh', folder, room + '/it.deb')[::2], (0, '')
            tried(['dpkg-deb', '-x', room + '/it.deb', room + '/deb'])
            yield 'it runs from it', last_line([room + '/deb/usr/bin/pitch', 'follow'], sample), LAST
            if live:
                live_there = tried([room + '/deb/usr/bin/pitch_live', *AT_ONCE])
                yield 'the live one runs from it', live_there, HEARD_NOTHING
            depends = tried(['dpkg-deb', '-f', room + '/it.deb', 'Package', 'Depends'])[1]
            yield 'what it depends on', bool(re.search(r'^Depends: libc6 \(>= 2\.\d+\)$', depends, re.M)), True
        yield 'a root', script('container.sh', folder, room + '/it.tar')[::2], (0, '')
        os.mkdir(room + '/root')
        tried(['tar', '-xf', room + '/it.tar', '-C', room + '/root'])
        if os.geteuid() == 0 and tried(['chroot', '/', 'true'])[0] == 0:
            chroot = ['chroot', room + '/root', '/pitch', 'follow']
            yield 'it runs there alone', last_line(chroot, sample), LAST
            if live:
                alone = tried(['chroot', room + '/root', '/pitch_live', *AT_ONCE])
                yield 'the live one runs there alone', alone, HEARD_NOTHING


def main():
    given = [os.path.abspath(it) for it in sys.argv[1:]]
    if len(given) > 2:
        sys.exit('usage: check.py [PROGRAM [LIVE]]')
    for it in given:
        if not os.access(it, os.X_OK):
            sys.exit('check.py: %s is no program' % it)
    groups = [of_texts(), of_faults()]
    if given:
        groups.append(of_program(*(given + [None])[:2]))
    passed = failed = 0
    for name, got, wanted in (case for group in groups for case in group):
        if got == wanted:
            passed += 1
        else:
            failed += 1
            print('FAIL %s: %r, and not %r' % (name, got, wanted))
    print('%d passed, %d failed' % (passed, failed))
    sys.exit(1 if failed else 0)


if __name__ == '__main__':
    main()
