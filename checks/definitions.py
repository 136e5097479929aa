"""checks/definitions.py [--write]: the tables of docs/DEFINITIONS.md, made from the comments of specs/.

For each crate of crates.txt: each definition that other modules may cite, in the order of the files' names, with the comment
above it. The source of a definition stands in brackets at the end of its comment; where the comment names none, the page's own stays, and
a definition that is new on the page is this project's rule.
Without --write it prints the crates whose tables are not as they would be made, and fails where there are any."""
import os
import re
import sys

top = os.path.dirname(os.path.dirname(os.path.abspath(__file__)))
page = os.path.join(top, 'docs', 'DEFINITIONS.md')
HEAD = '| name | what it says | file in specs/ | where it comes from |\n|---|---|---|---|\n'
OWN = "this project's rule"


def told(comment):
    """What a comment says, and the source that it names."""
    text = ' '.join(comment).strip().rstrip('.')
    found = re.search(r' \(((?:[^()]|\([^()]*\))*)\)$', text)
    if found and re.match(r'(?:ISO/IEC|ARIB|STD-B|RFC|ITU|this project)', found[1]):
        return text[:found.start()].rstrip('.'), found[1]
    return text, None


def rows(crate, sources):
    folder = os.path.join(top, 'crates', crate, 'specs')
    if not os.path.isdir(folder):
        return
    for name in sorted(os.listdir(folder)):
        if name == 'Lib.antt' or not name.endswith('.antt'):
            continue
        file, comment = name[:-5], []
        for line in open(os.path.join(folder, name), encoding='utf-8'):
            line = line.rstrip('\n')
            if re.match(r'\s*-- (?!----)', line):
                comment.append(line.strip()[3:])
                continue
            name = re.match(r'\s*(?:(?:abbrev|unfoldable|opaque|syntax) )*pub (?:record |data )?([^\s:({]+)(?=[\s:({])', line)
            if name and name[1] != 'use' and not line.startswith('  pub'):
                what, source = told(comment) if comment else ('auxiliary', None)
                source = source or sources.get((name[1], file), OWN)
                yield '| `%s` | %s | %s | %s |\n' % (name[1], what.replace('|', '\\|'), file, source)
                comment = []
            if not line.strip():
                comment = []


def main():
    text = open(page, encoding='utf-8').read()
    crates = [line.split(':')[0].strip() for line in open(os.path.join(top, 'crates.txt')) if ':' in line and not line.startswith('#')]
    tables = dict(re.findall(r'^### (\w+)\n\n(?:\|.*\n){2}((?:\|.*\n)*)', text, re.M))
    made = {}
    for crate in crates:
        cells = [line.strip('| \n').split(' | ') for line in tables.get(crate, '').split('\n') if line]
        made[crate] = list(rows(crate, {(row[0].strip('`'), row[-2]): row[-1] for row in cells}))
    start = text.index('### ')
    end = text.index('\n## ', start)
    whole = '\n\n'.join('### %s\n\n%s%s' % (crate, HEAD, ''.join(made[crate])) for crate in crates if made[crate])
    new = text[:start] + whole + text[end:]
    if '--write' in sys.argv:
        open(page, 'w', encoding='utf-8').write(new)
        return
    wrong = [crate for crate in crates if ''.join(made[crate]) != tables.get(crate, '')]
    print('docs/DEFINITIONS.md is as the comments of specs/ have it' if not wrong else 'other tables in: ' + ' '.join(wrong))
    sys.exit(1 if wrong else 0)


main()
