"""What the sources say, for `believed`, `header` and `format`: the files to be believed, the enums that these speak of, the
functions that are exported to C, the enums of the header, and the numbers that definitions give."""
import glob
import os
import re

ROOT = os.path.dirname(os.path.dirname(os.path.abspath(__file__)))
README, TRUST, HEADER = 'README.md', 'docs/TRUST.md', 'include/group_sheet.h'
# lengths and ends that no contract speaks of
BESIDE = ['crates/wire/specs/Capacity.antt', 'crates/sizes/specs/EndLimit.antt']


def texts():
    """The text of every file that is looked at, by its path in the repository."""
    found = [README, TRUST, HEADER]
    for pattern in ['crates/*/src/**/*.rt', 'crates/*/specs/**/*.antt']:
        found += sorted(glob.glob(pattern, root_dir=ROOT, recursive=True))
    out = {}
    for path in found:
        with open(os.path.join(ROOT, path), encoding='utf-8') as f:
            out[path] = f.read()
    return out


def believed(files):
    """The specs that docs/TRUST.md lists, in its order: items as '- `crates/wire/specs/Limits.antt`: ..'."""
    out = re.findall(r'^- `(crates/\w+/specs/\w+\.antt)`', files[TRUST], re.M)
    if not out or not set(out) <= set(files):
        raise SystemExit('%s lists specs that are not there: %s' % (TRUST, sorted(set(out) - set(files))))
    return out


def declared(files):
    """The enums of the sources that the listed specs import: their declarations, by path and name."""
    out = {}
    for path in believed(files):
        for crate, module, name in re.findall(
                r'^use Rattle\.(\w+)\.specs\.declared\.([a-z]\w*(?:\.[a-z]\w*)*)\.([A-Z]\w*)', files[path], re.M):
            source = 'crates/%s/src/%s.rt' % (crate, module.replace('.', '/'))
            found = re.search(r'^pub enum %s \{.*?^\}' % name, files.get(source, ''), re.M | re.S)
            if not found:
                raise SystemExit('%s: no enum %s in %s' % (path, name, source))
            out[source, name] = found[0]
    return out


class Export:
    """A function that is exported to C: its parameters as (name, type), its contract as text."""

    def __init__(self, path, name, parameters, result, contract):
        self.path, self.name, self.result, self.contract = path, name, result, contract
        self.parameters = [tuple(re.split(r':\s*', p.strip())) for p in parameters.split(',') if p.strip()]


def exports(files):
    out = []
    for path, text in files.items():
        if path.endswith('.rt'):
            found = re.findall(r'#\[unsafe\(no_mangle\)\]\s*pub extern "C" fn (\w+)\(([^)]*)\)(?:\s*->\s*(\w+))?\s*?\n(.*?)^\{',
                               text, re.M | re.S)
            if 2 * len(found) != len(re.findall(r'no_mangle|extern "C"', text)):
                raise SystemExit('%s: an export in a form that this test does not read' % path)
            out += [Export(path, *f) for f in found]
    return out


def plain(header):
    """The header with spaces for its comments."""
    return re.sub(r'/\*.*?\*/', lambda m: re.sub(r'.', ' ', m[0]), header, flags=re.S)


def enumerators(header, enum):
    """The names of one of the header's enums and their numbers, in its order."""
    return re.findall(r'SHEET_(\w+) = (\d+)', re.search(r'enum %s \{(.*?)\}' % enum, plain(header), re.S)[1])


class Specs:
    """The specs' definitions, to compute with: clauses 'name arguments = expression', over numbers and the cases of data."""

    def __init__(self, files):
        self.clauses, self.cases, self.used = {}, set(), set()
        for path in believed(files) + BESIDE:
            for m in re.finditer(r'^([^\s:]+)((?: [^\s=()]+)*) =(.*(?:\n +.*)*)', files[path], re.M):
                self.clauses.setdefault(m[1], []).append((m[2].split(), m[3], (path, m.start(3), m.end(3))))
            for block in re.findall(r'^(?:pub )?data .*\n((?: +.*\n)*)', files[path] + '\n', re.M):
                self.cases.update(re.findall(r'^ +(\w+) :', block, re.M))
        for text in declared(files).values():
            self.cases.update(re.findall(r'^ +(\w+)', text, re.M))

    def call(self, name, arguments):
        clauses = self.clauses.get(name, [])
        if len({place[0] for _, _, place in clauses}) != 1:
            raise ValueError('%s is not defined in one of the specs' % name)
        for patterns, body, place in clauses:
            if all(p == str(a) or p not in self.cases and not p.isdigit() for p, a in zip(patterns, arguments)):
                self.used.add(place)
                return self.value(body, dict(zip(patterns, arguments)))
        raise ValueError('%s has no clause for %s' % (name, arguments))

    def value(self, text, known):
        words = re.findall(r"\d+|[^\W\d][\w′'-]*|\S", text) + ['']
        signs = [{'+': lambda a, b: a + b, '-': lambda a, b: max(0, a - b)},
                 {'*': lambda a, b: a * b, '/': lambda a, b: a // b, '%': lambda a, b: a % b}]

        def level(n):
            left = level(n + 1) if n < len(signs) else atom()
            while n < len(signs) and words[0] in signs[n]:
                left = signs[n][words.pop(0)](left, level(n + 1))
            return left

        def atom():
            word = words.pop(0)
            if word == '(':
                inner = level(0)
                if words.pop(0) == ')':
                    return inner
            elif word.isdigit():
                return int(word)
            elif word in known or word in self.cases:
                return known.get(word, word)
            elif word in self.clauses:
                return self.call(word, [atom() for _ in self.clauses[word][0][0]])
            raise ValueError('not a number of the specs: ' + text)

        out = level(0)
        if words != ['']:
            raise ValueError('not a number of the specs: ' + text)
        return out
