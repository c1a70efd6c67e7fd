#!/usr/bin/env python3
"""Spells the repository's own definitions and lemmas in snake case: lowestFree becomes lowest_free, open-sign open_sign.

usage: tools/respell.py [--list] [FOLDER]

Run once, at the top, right after Rattle's port.py, which leaves these names as they were. It reads the .antt and .rt files and
the must-fail edits below crates/ of FOLDER (this repository, if none is given), and changes
- each word that begins with a small letter and has a capital further on, but not in a string, and
- each dash in the name of what specs/ declares and of a field of a record; a dash in the name of a law joins two names, and stays.
Types and modules, which begin with a capital, stay. A word whose new spelling stands in the same file already, before the
change, is named, and with --list nothing is written.
"""
import glob
import os
import re
import sys

CAMEL = re.compile(r'(?<![A-Za-z0-9])[a-z][a-z0-9]*(?:[A-Z][a-z0-9]*)+(?![A-Za-z0-9])')
WORD = re.compile(r'[A-Za-z_][A-Za-z0-9_\'-]*')
# Lemmas that would fall together with the definition that they are about: a lemma with its function's name ends in _lem.
LEMMAS = {
    'no_end': ('entries', 'needs'), 'set_below': '*', 'no_line': ('instructions',), 'went_on': '*', 'at_open': ('usage_text',),
    'is_pos': ('values',), 'all_apart': ('woven',), 'head_at': ('woven',), 'row_laid': ('woven',),
}
STRING = re.compile(r'b?"(?:[^"\\\n]|\\.)*"')
DECLARED = re.compile(r"^ *(?:(?:pub|abbrev|unfoldable|data|record) )*([^\s:(){}]+)(?: \{[^}]*\}| \([^)]*\))* :(?= )", re.M)
RECORD = re.compile(r'^( *)(?:pub )?(?:record|data) [^\n]*(?:\n[^\n]+){0,3}?\bwhere\n((?:\1 +[^\n]+\n|\n)+)', re.M)
FIELD = re.compile(r"^ +(?:pub )?([^\s:(){}]+) :(?= )", re.M)


def snake(word):
    return re.sub(r'[A-Z]', lambda m: '_' + m[0].lower(), word).replace('-', '_')


def dashed(root):
    """The names with a dash of what specs/ declares and of fields of records."""
    names = set()
    for file in glob.glob(f'{root}/crates/*/*/*.antt'):
        with open(file, encoding='utf-8') as handle:
            text = handle.read()
        if '/specs/' in file:
            names.update(DECLARED.findall(text))
        for record in RECORD.finditer(text):
            names.update(FIELD.findall(record[2]))
    return {it for it in names if '-' in it}


def with_lemmas(file, text):
    """The text of a file of proofs in which each of LEMMAS ends in _lem."""
    if '/proofs/' not in file:
        return text
    for word, crates in LEMMAS.items():
        if crates == '*' or any(f'/crates/{it}/' in file for it in crates):
            text = re.sub(rf"(?<![\w.'-]){word}(?![\w'-])", f'{word}_lem', text)
    return text


def respelled(text, dashes):
    """The text with its words changed, and the words."""
    found = set()

    def turn(match):
        found.add(match[0])
        return snake(match[0])

    parts, last = [], 0
    for string in STRING.finditer(text):
        parts += [CAMEL.sub(turn, text[last:string.start()]), string[0]]
        last = string.end()
    parts.append(CAMEL.sub(turn, text[last:]))
    new = ''.join(parts)
    if dashes:
        new = dashes.sub(turn, new)
    return new, found


def main():
    words = [it for it in sys.argv[1:] if it != '--list']
    root = words[0] if words else os.path.join(os.path.dirname(os.path.abspath(__file__)), '..')
    files = [it for kind in ('antt', 'rt', 'edit') for it in glob.glob(f'{root}/crates/**/*.{kind}', recursive=True) if '/out/' not in it]
    names = '|'.join(re.escape(it) for it in sorted(dashed(root), key=len, reverse=True))
    dashes = re.compile(rf"(?<![\w'-])(?:{names})(?![\w'-])") if names else None
    turned = set()
    for file in sorted(files):
        with open(file, encoding='utf-8') as handle:
            old = handle.read()
        text = with_lemmas(file, old)
        new, found = respelled(text, dashes)
        had = set(WORD.findall(text))
        for word in sorted(found):
            if snake(word) in had:
                print(f'meets: {os.path.relpath(file, root)}: {word} and {snake(word)}')
        turned |= found
        if new != old and '--list' not in sys.argv:
            with open(file, 'w', encoding='utf-8') as handle:
                handle.write(new)
    print(f'{len(turned)} words')


main()
