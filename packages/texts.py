#!/usr/bin/env python3
"""Makes the man pages and the completions of what README and LIVE have in tables, and mends the links
of a folder that has some of the documents.

    packages/texts.py man | completion [pitch_live]
    packages/texts.py links FOLDER

Those of `pitch` are made where no program is named. A link of a document in FOLDER that leads to no
file there becomes its text.
"""
import os
import re
import sys
from pathlib import Path

TOP = Path(__file__).resolve().parent.parent
OPTION = re.compile(r'--[a-z]+')


def rows_of(heading, head, page='README.md'):
    """The rows of the table below a heading of a page, without links."""
    text = (TOP / page).read_text(encoding='utf-8')
    part = re.split(r'^#+ ', text[text.index('\n%s\n' % heading) + len(heading) + 2:], flags=re.M)[0]
    lines = [line for line in part.splitlines() if line.startswith('|')]
    rows = [[it.strip() for it in line.strip('|').split('|')] for line in lines]
    at = rows.index(head)
    return [[plain(it) for it in row] for row in rows[at + 2:] if len(row) == len(head)]


def plain(text):
    return re.sub(r'\[([^\]]*)\]\([^)]*\)', r'\1', text)


def commands():
    return rows_of('## Commands', ['Words', 'Reads', 'Writes', 'Limits'])


def statuses():
    """Those of the program: one more is the script's that builds it."""
    rows = rows_of('### Exit status', ['Status', 'When', 'What it usually means'])
    return [row for row in rows if './pitch' not in row[1]]


def live_commands():
    """Those of `pitch_live`, each with its words and what they are."""
    head = ['Word', 'What it is']
    return {'listen': rows_of('## Words', head, 'docs/LIVE.md'),
            'serve': rows_of('## A venue of your own', head, 'docs/LIVE.md')}


# ---- The man pages
def roff(text):
    """A text of the table as one of roff: words in backticks are bold."""
    text = text.replace('\\', '\\e').replace('-', '\\-')
    return re.sub(r'`([^`]*)`', r'\\fB\1\\fR', text)


def sentence(*parts):
    return '; '.join(it for it in parts if it) + '.'


def man():
    lines = ['.TH PITCH 1 "" "pitch" "Cboe US Equities Multicast PITCH"', '.SH NAME',
             'pitch \\- order books from the Multicast PITCH feed, proved', '.SH SYNOPSIS',
             '.B pitch', '.I COMMAND', '[\\fIOPTIONS\\fR] < \\fIINPUT\\fR', '.SH DESCRIPTION',
             'Rebuilds order books from the blocks of a feed or from a capture of them: the book',
             'that it prints is exactly that of the venue\\(aqs first n messages, and it says n.',
             'Status 0 does not say that a book is current; it is not where its unit\\(aqs last line says',
             '.BR behind .', 'Standard input is read, and no file by its name.', '.SH COMMANDS']
    for words, reads, writes, limits in commands():
        lines += ['.TP', '.B ' + roff(words.strip('`'))]
        lines += [roff(sentence(it)) for it in ('Reads ' + reads, 'Writes ' + writes, 'Limits: ' + limits)]
    lines += ['.PP', 'An option is', '.B \\-\\-hold 64', 'or', '.BR \\-\\-hold=64 ,', 'once.', '.SH EXIT STATUS']
    for status, when, cause in statuses():
        lines += ['.TP', '.B ' + status, roff(sentence(when, cause))]
    lines += ['.SH SEE ALSO', 'The documents and examples that come with it, in',
              '/usr/share/doc/pitch-feed where it came as a package.']
    return '\n'.join(lines) + '\n'


def live_man():
    lines = ['.TH PITCH_LIVE 1 "" "pitch_live" "Cboe US Equities Multicast PITCH"', '.SH NAME',
             'pitch_live \\- hears a Multicast PITCH feed on sockets, or serves one, proved', '.SH SYNOPSIS',
             '.B pitch_live listen', '\\fIOPTIONS\\fR', '.br', '.B pitch_live serve', '\\fIOPTIONS\\fR',
             '.SH DESCRIPTION', '.B listen', 'hears lines A and B and gap lines, asks the servers of each unit for what was',
             'lost, and writes what', '.B pitch follow', 'writes, as it goes on.', '.B serve',
             'is a venue of units, with their lines, Gap Request Proxies and Spin Servers; its commands come by',
             'standard input.']
    for command, rows in live_commands().items():
        lines.append('.SH WORDS OF ' + command.upper())
        for words, what in rows:
            lines += ['.TP', '.B ' + roff(words.replace('`', '')), roff(sentence(what))]
    lines += ['.SH EXIT STATUS', 'That of', '.BR pitch (1),',
              'or 8 where two copies of a message of a unit that is named differ.',
              '.SH SEE ALSO', '.BR pitch (1),', 'and LIVE.md among the documents in',
              '/usr/share/doc/pitch-feed where it came as a package.']
    return '\n'.join(lines) + '\n'


# ---- The completions
def completion():
    options = {}
    for words, *_ in commands():
        found = options.setdefault(words.strip('`').split()[0], [])
        found += [it for it in OPTION.findall(words) if it not in found]
    return completion_of('pitch', options, 'Files come by redirection.')


def live_completion():
    options = {}
    for command, rows in live_commands().items():
        found = OPTION.findall(' '.join(words for words, _ in rows))
        options[command] = sorted(set(found), key=found.index)
    return completion_of('pitch_live', options, 'A file is only given behind an option.')


def completion_of(program, options, files):
    """What completes the commands of a program, and the options of each."""
    case = '            %s) words="%s" ;;\n'
    cases = ''.join(case % (name, ' '.join(it)) for name, it in options.items() if it)
    return '''# Completion of %s for bash: its commands, and the options of each. %s
_%s() {
    local words=""
    if [ "$COMP_CWORD" = 1 ]; then
        words="%s"
    else
        case ${COMP_WORDS[1]} in
%s        esac
    fi
    mapfile -t COMPREPLY < <(compgen -W "$words" -- "${COMP_WORDS[COMP_CWORD]}")
}
complete -o default -F _%s %s
''' % (program, files, program, ' '.join(options), cases, program, program)


# ---- Links
def mend_links(folder):
    for path in folder.rglob('*.md'):
        def mended(found):
            target = found[2].partition('#')[0]
            stands = not target or ':' in target or (path.parent / target).exists()
            return found[0] if stands else found[1]
        text = path.read_text(encoding='utf-8')
        path.write_text(re.sub(r'(?<!!)\[([^\]]*)\]\(([^)\s]+)\)', mended, text), encoding='utf-8')


def main():
    words = sys.argv[1:]
    made = {('man',): man, ('completion',): completion,
            ('man', 'pitch_live'): live_man, ('completion', 'pitch_live'): live_completion}
    if tuple(words) in made:
        sys.stdout.write(made[tuple(words)]())
    elif len(words) == 2 and words[0] == 'links' and os.path.isdir(words[1]):
        mend_links(Path(words[1]))
    else:
        sys.exit('texts.py: usage: texts.py man | completion [pitch_live], or links FOLDER')


if __name__ == '__main__':
    try:
        main()
        sys.stdout.flush()
    except OSError as error:
        # Whoever read it is gone: nothing is left to be written at the end.
        os.dup2(os.open(os.devnull, os.O_WRONLY), 1)
        sys.exit('texts.py: %s' % error.strerror)
