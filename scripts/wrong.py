"""Lists of rules that are made wrong on purpose: read, and made wrong in a copy of the project.

An entry of a list is a comment, `refused by: WHAT`, `file: FILE` and pairs of `old: ` and `new: `, each a text of the file; a
backslash and n in it is an end of line.
"""
import os
import sys


def entries(path):
    """Each entry: its comment, what refuses it, its file and its pairs of texts."""
    found = []
    comment = ''
    for line in open(path, encoding='utf-8'):
        line = line.rstrip('\n')
        if line.startswith('# '):
            comment = line[2:]
        elif line.startswith('refused by: '):
            found.append({'comment': comment, 'by': line[12:], 'pairs': []})
        elif line.startswith('file: '):
            found[-1]['file'] = line[6:]
        elif line.startswith('old: '):
            found[-1]['pairs'].append([line[5:].replace('\\n', '\n'), None])
        elif line.startswith('new: '):
            found[-1]['pairs'][-1][1] = line[5:].replace('\\n', '\n')
        elif line:
            sys.exit(f'{path}: not understood: {line}')
    return found


def wrong_text(root, entry):
    """The entry's file with its texts exchanged, all at once; each old text stands once."""
    text = open(os.path.join(root, entry['file']), encoding='utf-8').read()
    for old, new in entry['pairs']:
        if text.count(old) != 1 or new is None:
            sys.exit(f"wrong: '{entry['comment']}': this text stands {text.count(old)} times: {old}")
    for at, old, new in sorted(((text.index(old), old, new) for old, new in entry['pairs']), reverse=True):
        text = text[:at] + new + text[at + len(old):]
    return text


def make_wrong(root, entry):
    text = wrong_text(root, entry)
    with open(os.path.join(root, entry['file']), 'w', encoding='utf-8') as out:
        out.write(text)
