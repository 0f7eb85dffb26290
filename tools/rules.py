"""rules: docs/SPEC.md against the definitions. `tools/rules` prints the map: rule, definitions that cite it, functions whose contracts cite those."""
import glob
import re


def read(path):
    return open(path, encoding='utf-8').read()


def rules():
    """number -> text, for each rule of the page"""
    return {m[1]: m[2] for m in re.finditer(r'^\*\*(\d+\.\d+)\*\* (.*?)(?=\n\n|\Z)', read('docs/SPEC.md'), re.M | re.S)}


def definitions():
    """(crate, name, the rules that the comment over it cites, file) for each public definition of specs/. A comment that starts with rule
    numbers holds for the definition under it; numbers in a file's head hold for the file."""
    for path in sorted(glob.glob('crates/*/specs/*.antt')):
        crate, comment = path.split('/')[1], []
        for line in read(path).split('\n'):
            if line.startswith('--'):
                comment.append(line)
                continue
            found = re.match(r'(?:abbrev |unfoldable )?pub (?:record |data )?([^\s:]+)', line)
            if found and not line.startswith('pub mod'):
                yield crate, found.group(1), cited('\n'.join(comment)), path
            if not line.startswith(' ') or line.strip() == '':
                comment = [] if line.strip() != '' or not comment else []


def cited(comment):
    """The rule numbers of a comment: `-- 4.3, 4.4: ..`, or anywhere in parentheses, `(2.1)`."""
    numbers = []
    for line in comment.split('\n'):
        start = re.match(r'-- ((?:\d+\.\d+(?:, | and | to )?)+)(?::|$)', line)
        if start:
            numbers += re.findall(r'\d+\.\d+', start.group(1))
        numbers += [n for group in re.findall(r'\((\d+\.\d+(?:, \d+\.\d+)*)[:)]', line) for n in re.findall(r'\d+\.\d+', group)]
        numbers += re.findall(r'(?<=[;:] )\d+\.\d+(?=:)', line)
    return numbers


def everywhere():
    """Every rule number that a comment of specs/ cites, also between the lines of a definition."""
    for path in sorted(glob.glob('crates/*/specs/*.antt')):
        for number, line in enumerate(read(path).split('\n'), 1):
            comment = re.match(r'\s*(--.*)', line)
            if comment:
                for rule in cited(comment.group(1)):
                    yield path, number, rule


def faults(functions):
    known = rules()
    used = set()
    for path, number, rule in everywhere():
        used.add(rule)
        if rule not in known:
            yield f'{path}:{number}: cites {rule}, and docs/SPEC.md has no such rule'
    for rule, text in known.items():
        if rule not in used and '[kept by:' not in text:
            yield f'docs/SPEC.md: rule {rule} is cited by no definition and does not say what keeps it'
    told = {(crate, name): (numbers, path) for crate, name, numbers, path in definitions()}
    for function, contract in functions.items():
        crate = function.split('::')[0]
        promise = contract[contract.find('ensures'):]
        for alias, (home, name) in imports(crate).items():
            if re.search(rf'(?<![\w«.]){re.escape(alias)}(?![\w»])', promise) and name.endswith(('_of', '_out')) and (home, name) in told:
                numbers, path = told[home, name]
                if not numbers:
                    yield f'{path}: {name}, which the contract of {function} cites, names no rule'


def imports(crate):
    """name in the contracts of a crate -> (crate that defines it, its name there)"""
    names = {}
    for home, listed in re.findall(r'^ghost use Rattle\.(\w+)\.[^{;]*\{([^}]*)\};', read(f'crates/{crate}/src/lib.rt'), re.M | re.S):
        for item in listed.split(','):
            original, _, alias = (word.strip() for word in item.partition(' as '))
            if original:
                names[alias or original] = (home, original)
    return names


def print_map(functions):
    by_rule = {}
    for crate, name, numbers, path in definitions():
        for n in numbers:
            by_rule.setdefault(n, []).append((crate, name))
    for rule, text in rules().items():
        first = ' '.join(text.split())
        print(f'{rule}  {first[:100]}')
        for crate, name in by_rule.get(rule, []):
            doors = [f for f, c in functions.items() if f.split('::')[0] == crate and re.search(rf'(?<![\w«.]){re.escape(name)}(?![\w»])', c)]
            print(f'      {crate} {name}' + (f'  <- {", ".join(doors)}' if doors else ''))
