#!/usr/bin/env python3
"""respell: brings what port.py left of this repository's own spelling to today's: run once at the top, right after port.py.

- The crate `log` is called as a library of the kit is: it becomes `record_log`, in crates.txt, its folder, `use` lines and paths.
- Definitions, fields, constructors and lemmas that specs/ and proofs/ declare are in snake case: `crcOf` is `crc_of`, `more-flushes` is
  `more_flushes`. Types, modules, and names that Rust code declares keep their spelling. A name that is also a library's stays.
- The texts of must-fail edits follow: names, primes, and projections, which are written tight.

It goes by whole words, and stops, with nothing written, where two names of one file would fall together."""
import re
import subprocess
import sys
from pathlib import Path

ROOT = Path(subprocess.run(['git', 'rev-parse', '--show-toplevel'], capture_output=True, text=True, check=True).stdout.strip())
OLD_CRATE, NEW_CRATE = 'log', 'record_log'

# a word of antt, and a word of a comment
WORD = re.compile(r'[^\s(){}.;,@"«»`]+')
PLAIN = re.compile(r"[A-Za-z][\w']*(?:-[\w']+)*")
DECLARED = re.compile(r"^( *)((?:abbrev |unfoldable |pub |data |record )*)([^\s(){}:.,;]+)((?: |:).*)$")
KEYWORDS = {'where', 'use', 'let', 'in', 'λ', 'module', 'pub', 'mod', 'abbrev', 'unfoldable', 'unfolding', 'data', 'record', 'elim', 'rw'}

# names whose snake case another name of the repository has
APART = {
    'toEnd': 'write_to_end',
    'fromStart': 'write_from_start',
    'header-in': 'header_within',
    'whole-plan': 'plan_whole',
    'same_bytes': 'same_as_whole',
}

# port.py's own spellings that a must-fail edit still lacks, beside those that snake case gives
OF_PORT = {'getD': 'get_or'}


def snake(name):
    return re.sub(r'(?<=[a-z0-9])[A-Z]', lambda found: '_' + found[0].lower(), name).replace('-', '_')


def is_odd(name):
    """A name that is no type and not in snake case."""
    return not name[0].isupper() and snake(name) != name and re.fullmatch(r"[A-Za-z0-9_'\-]+", name)


def antt_files():
    return sorted(ROOT.glob('crates/*/specs/**/*.antt')) + sorted(ROOT.glob('crates/*/proofs/**/*.antt'))


def declared_in(text):
    """The names that a file declares: of definitions, fields, constructors, lemmas, and what stands in a `where`."""
    names = set()
    for line in text.splitlines():
        found = DECLARED.match(line)
        if not found or line.lstrip().startswith('--') or found[3] in KEYWORDS:
            continue
        if re.search(r'(^| ):( |$)', found[4]) or 'record' in found[2] or 'data' in found[2]:
            names.add(found[3])
    return names


def imported_from_libraries(text):
    """The names that a file takes from elsewhere than this repository."""
    names = set()
    for path, items in re.findall(r'use ([^\s;{]+?)\.?(?:\{([^}]*)\})?(?:;|$|\s)', text, re.M):
        parts = path.split('.')
        if parts[0] == 'Rattle' and len(parts) > 1 and (ROOT / 'crates' / parts[1]).is_dir():
            continue
        names.update(item.split(' as ')[0].strip() for item in items.split(','))
        names.add(parts[-1])
    return names


def code_words(text):
    return {word for line in text.splitlines() for word in WORD.findall(line.split('--')[0])}


def turned(line, table):
    """A line with its words by the table; in a comment only words that are no English: in camel case, or between backticks."""
    cut = re.search(r'(?<!\S)--', line)
    code, comment = (line[:cut.start()], line[cut.start():]) if cut else (line, '')
    code = WORD.sub(lambda word: table.get(word[0], word[0]), code)
    return code + in_prose(comment, table)


def in_prose(text, table):
    text = re.sub(r'`[^`]*`', lambda span: PLAIN.sub(lambda word: table.get(word[0], word[0]), span[0]), text)
    return PLAIN.sub(lambda word: table.get(word[0], word[0]) if re.search(r'[a-z][A-Z]', word[0]) else word[0], text)


def crate_paths(text):
    text = re.sub(rf'\bRattle\.{OLD_CRATE}(?=\.)', f'Rattle.{NEW_CRATE}', text)
    text = re.sub(rf'^use {OLD_CRATE}::', f'use {NEW_CRATE}::', text, flags=re.M)
    return text


def edit_text(text, table):
    """A must-fail edit's texts: primes, tight projections, then names."""
    lines = []
    for line in text.splitlines():
        if line.startswith(('old:', 'new:')):
            head, body = line[:4], line[4:].replace('′', "'")
            body = re.sub(r'\((\w+) \.([\w-]+)\)', r'\1.\2', body)
            body = re.sub(r'(?<=\w) \.([\w-]+)', r'.\1', body)
            line = head + WORD.sub(lambda word: table.get(word[0], word[0]), body)
        lines.append(line)
    return '\n'.join(lines) + '\n'


def main():
    texts = {path: path.read_text() for path in antt_files()}
    walks = {path for path in texts if path.name in ('Proof.antt', 'Invariants.antt', 'Answers.antt')}
    declared = set().union(*(declared_in(text) for path, text in texts.items() if path not in walks))
    foreign = set().union(*(imported_from_libraries(text) for text in texts.values()))
    table = {name: snake(name) for name in declared if is_odd(name) and name not in foreign} | APART

    # In a proof that walks the code a step may be called as a definition is: it stands behind a dot.
    meets = [f'{path.relative_to(ROOT)}: {old} and {new}' for path, text in texts.items() if path not in walks for words in [code_words(text)]
             for old, new in table.items() if old in words and new in words and new not in table]
    meets += [f'everywhere: {old} and {other}' for old, new in table.items() for other, again in table.items() if other < old and new == again]
    if meets:
        print('names that would fall together:', *meets, sep='\n')
        return 1

    for path, text in texts.items():
        path.write_text(crate_paths('\n'.join(turned(line, table) for line in text.split('\n'))))
    for path in sorted(ROOT.glob('crates/*/src/**/*.rt')):
        text = path.read_text()
        path.write_text(crate_paths('\n'.join(PLAIN.sub(lambda word: table.get(word[0], word[0]) if re.search(r'[a-z][A-Z]|^[a-z]+(-[a-z]+)+$', word[0])
                                                         and ('//' not in line.split(word[0])[0] or re.search(r'[a-z][A-Z]', word[0])) else word[0], line)
                                                for line in text.split('\n'))))
    known = table | OF_PORT | {name: snake(name) for name in edit_words() if snake(name) in declared | set(table.values())}
    for path in sorted(ROOT.glob('crates/*/must-fail/*.edit')):
        path.write_text(edit_text(path.read_text(), known))

    listing = ROOT / 'crates.txt'
    lines = [line if line.startswith('#') else re.sub(rf'\b(?<!_){OLD_CRATE}\b(?!_)', NEW_CRATE, line) for line in listing.read_text().split('\n')]
    listing.write_text('\n'.join(lines))
    subprocess.run(['git', 'mv', f'crates/{OLD_CRATE}', f'crates/{NEW_CRATE}'], cwd=ROOT, check=True)
    for old, new in sorted(table.items()):
        print(f'{old}\t{new}')
    return 0


def edit_words():
    """Words of must-fail edits of specs/ that are in no snake case."""
    texts = [path.read_text() for path in ROOT.glob('crates/*/must-fail/*.edit')]
    return {word for text in texts if re.search(r'^file: specs/', text, re.M) for line in text.splitlines() if line.startswith(('old:', 'new:'))
            for word in WORD.findall(line[4:]) if is_odd(word)}


if __name__ == '__main__':
    sys.exit(main())
