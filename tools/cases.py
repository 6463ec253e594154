#!/usr/bin/env python3
"""Runs files of cases on a built program by its command line, or on another engine.

cases.py [--program PATH] [--engine NAME] [--only TEXT] [FILE ...]

Without --program the program is ./xslt2xq of this checkout; without files all of
crates/conformance/data and crates/conformance_large/data are run. Each case that does not end as
it says is listed, and last how many there were. --only takes the cases whose title, text or file
has TEXT in it. --engine asks another engine the queries in a line: it names a program that is
called as `NAME QUERYFILE DOCUMENT`, and whose error, whatever it is, agrees with any error here.
Prints, which no command of the program does, are passed over. The page data/README.md of
crates/conformance says what a file of cases looks like.
"""
import argparse
import concurrent.futures
import os
import re
import subprocess
import sys
import tempfile

HERE = os.path.dirname(os.path.dirname(os.path.abspath(__file__)))
FOLDERS = ['conformance', 'conformance_large']
SETTINGS = ['document', 'variables', 'depth', 'further', 'prolog']
BLOCKS = ['run', 'load']
LINES = ['sheet', 'rules', 'body', 'print']
NOTE = re.compile(r'(static|dynamic) [A-Z]{4}[0-9]{4}|deep [0-9]+')
STATUS = {'static': 5, 'dynamic': 7, 'deep': 8}
HEAD = '<?xml version="1.0" encoding="UTF-8"?>'
SHEET = ('<xsl:stylesheet version="2.0" xmlns:xsl="http://www.w3.org/1999/XSL/Transform" '
         'xmlns:xs="http://www.w3.org/2001/XMLSchema" xmlns:f="urn:f">%s</xsl:stylesheet>')
BODY = '<xsl:template match="/">%s</xsl:template>'


class Malformed(Exception):
    pass


class Case:
    """A case: where it is, the words of its run, its files, and how it ends."""

    def __init__(self, place, title, text):
        self.place, self.title, self.text = place, title, text
        self.words, self.files, self.status, self.notes, self.output = [], {}, None, None, None
        self.kind = 'run'


def repeated(text):
    """The text with each `{N*TEXT}` written out; `{#}` in TEXT is the number of the turn from 0, and
    `{{` a brace before a digit."""
    out, at = [], 0
    while True:
        m = re.compile(r'\{\{(?=[0-9])|\{([0-9]+)\*').search(text, at)
        if m is None:
            return ''.join(out) + text[at:]
        out.append(text[at:m.start()])
        if m.group(1) is None:
            out.append('{')
            at = m.end()
            continue
        end = closing(text, m.end())
        turn = text[m.end():end]
        out.extend(repeated(turn.replace('{#}', str(i))) for i in range(int(m.group(1))))
        at = end + 1


def closing(text, at):
    """Where the repetition ends whose text begins here."""
    depth = 0
    for i in range(at, len(text)):
        depth += {'{': 1, '}': -1}.get(text[i], 0)
        if depth < 0:
            return i
    raise Malformed('a repetition does not end: %s' % text[:60])


def parsed(path):
    with open(path, encoding='utf-8', newline='') as f:
        lines = f.read().split('\n')
    cases, title, settings, at = [], '', {}, 0
    while at < len(lines):
        line = lines[at]
        place = '%s:%d' % (os.path.relpath(path, HERE), at + 1)
        word, _, rest = line.partition(' ')
        at += 1
        if line == '' or line.startswith('#'):
            continue
        if word == '==':
            title, settings = rest, {}
        elif word in SETTINGS:
            settings[word] = rest
        elif word in BLOCKS:
            at = block(Case(place, title, line), word, rest, lines, at, cases)
        else:
            cases.append(one_line(Case(place, title, line), word, rest, line, settings))
    return cases


def one_line(case, word, rest, line, settings):
    text, arrow, result = (rest if word in LINES else line).rpartition(' => ')
    if not arrow:
        raise Malformed('%s: no result' % case.place)
    text, result = repeated(text), repeated(result)
    if word == 'print':
        case.kind = 'print'
    elif word in LINES:
        sheet = SHEET % (BODY % text if word == 'body' else text)
        case.words, case.files = ['transform', 's.xsl', 'd.xml'], {'s.xsl': sheet, 'd.xml': '<a/>'}
        loaded(case, result)
    else:
        ask(case, text, result, settings)
    return case


def ask(case, text, result, settings):
    """A query in a line, over the document and with the words that are set."""
    case.kind = 'query'
    case.files = {'q.xq': repeated(settings.get('prolog', '')) + text,
                  'd.xml': repeated(settings.get('document', '<a/>'))}
    case.words = ['query', 'q.xq', 'd.xml']
    if 'depth' in settings:
        case.words += ['--depth', settings['depth']]
    if 'further' in settings:
        name, _, content = settings['further'].partition(' ')
        case.files[name] = repeated(content)
        case.words += ['--doc', name]
    case.words += [w for w in settings.get('variables', '').split(' ') if w]
    if NOTE.fullmatch(result):
        case.status, case.notes = STATUS[result.split(' ')[0]], result
    else:
        case.status, case.output = 0, HEAD + result


def loaded(case, result):
    """A stylesheet is whole, or breaks the rule of this code."""
    if result != 'whole':
        case.status, case.notes = 5, 'static ' + result
    else:
        case.kind = 'whole'


def block(case, word, rest, lines, at, cases):
    """Reads a case of several lines, and gives where the next begins."""
    case.words = rest.split(' ') if word == 'run' else ['transform', rest, 'd.xml']
    if word == 'load':
        case.files['d.xml'] = '<a/>'
    while at < len(lines) and lines[at] != '':
        key, _, value = lines[at].partition(' ')
        at += 1
        if key == 'bytes':
            name, _, digits = value.partition(' ')
            case.files[name] = bytes.fromhex(digits)
        elif key == 'file':
            end = ended(lines, at, ['file ', 'bytes ', 'gives ', 'output'])
            case.files[value] = repeated('\n'.join(unmarked(lines[at:end])))
            at = end
        elif key == 'gives' and word == 'load':
            loaded(case, value)
        elif key == 'gives':
            end = ended(lines, at, ['output', ''])
            case.status, case.notes = int(value), '\n'.join(lines[at:end])
            at = end
        elif key == 'output':
            end = ended(lines, at, [''])
            case.output = repeated('\n'.join(unmarked(lines[at:end])))
            at = end
        else:
            raise Malformed('%s: the line %d is none of a case' % (case.place, at))
    cases.append(case)
    return at


def ended(lines, at, words):
    """The first line from here that is empty, where '' is asked for, or begins with a word."""
    while at < len(lines):
        line = lines[at]
        if any(line == w.strip() or (w and line.startswith(w)) for w in words):
            return at
        at += 1
    return at


def unmarked(lines):
    return [line[1:] if re.match(r'\\+(file|bytes|gives|output|$)', line) else line
            for line in lines]


def run(case, program):
    """What differs, or None."""
    with tempfile.TemporaryDirectory(prefix='case-') as folder:
        for name, content in case.files.items():
            with open(os.path.join(folder, name), 'wb') as f:
                f.write(content if isinstance(content, bytes) else content.encode())
        p = subprocess.run(program + case.words, cwd=folder, stdin=subprocess.DEVNULL,
                           capture_output=True)
    note = p.stderr.decode('utf-8', 'replace')
    output = p.stdout.decode('utf-8', 'replace')
    came = '%d %s%s' % (p.returncode, note[:300].strip(), output[:600])
    if case.kind == 'whole':
        return None if p.returncode == 0 or note == 'static XTUN0001\n' else came
    if p.returncode != case.status:
        return came
    if note != (case.notes + '\n' if case.notes else ''):
        return came
    return came if case.output is not None and output != case.output else None


def ask_engine(case, engine):
    """What another engine gives where it differs, or None."""
    if case.kind != 'query' or len(case.words) > 3:
        return None
    with tempfile.TemporaryDirectory(prefix='case-') as folder:
        for name, content in case.files.items():
            with open(os.path.join(folder, name), 'w', encoding='utf-8') as f:
                f.write(content)
        p = subprocess.run(engine + ['q.xq', 'd.xml'], cwd=folder, stdin=subprocess.DEVNULL,
                           capture_output=True)
    came = p.stdout.decode('utf-8', 'replace')
    if case.status:
        return None if p.returncode else 'gave ' + came[:300]
    if p.returncode:
        return 'failed: ' + p.stderr.decode('utf-8', 'replace')[:300]
    came = re.sub(r'^<\?xml[^>]*\?>\n?', '', came).rstrip('\n')
    return None if came == case.output[len(HEAD):] else came[:600]


def files_of(names):
    if names:
        return names
    found = []
    for folder in FOLDERS:
        for at, _, inside in os.walk(os.path.join(HERE, 'crates', folder, 'data')):
            found += [os.path.join(at, n) for n in inside if n.endswith('.cases')]
    return sorted(found)


def main():
    words = argparse.ArgumentParser()
    words.add_argument('--program', default=os.path.join(HERE, 'xslt2xq'))
    words.add_argument('--engine')
    words.add_argument('--only', default='')
    words.add_argument('files', nargs='*')
    said = words.parse_args()
    cases = [c for f in files_of(said.files) for c in parsed(f)
             if said.only in c.title or said.only in c.text or said.only in f]
    cases = [c for c in cases if c.kind != 'print']
    if said.engine:
        def asked(case):
            return ask_engine(case, said.engine.split(' '))
    else:
        def asked(case):
            return run(case, [os.path.abspath(said.program)])
    differ = 0
    with concurrent.futures.ThreadPoolExecutor(os.cpu_count()) as pool:
        for case, came in zip(cases, pool.map(asked, cases)):
            if came is not None:
                differ += 1
                print('%s (%s)\n  %s\n  came: %s' % (case.place, case.title, case.text, came))
    print('%d cases, %d differ' % (len(cases), differ))
    return 1 if differ else 0


if __name__ == '__main__':
    sys.exit(main())
